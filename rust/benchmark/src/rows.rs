//! The rows of the table: each does the same work on both sides, and gives nanoseconds for a unit of it.

use crate::inputs::{self, Run, Texts};
use crate::sides::{Engine, Rust};
use std::hint::black_box;
use std::time::Instant;

pub struct Row {
    pub name: String,
    pub unit: Unit,
    pub rust: Box<dyn FnMut() -> f64>,
    pub engine: Box<dyn FnMut() -> f64>,
}

#[derive(Clone, Copy, Eq, PartialEq)]
pub enum Unit {
    Byte,
    Step,
    Card,
    Call,
}

/// How many units a timed block has at least, so that reading the clock costs nothing.
pub const BLOCK: u64 = 20_000;

pub fn rows() -> Vec<Row> {
    let mut rows: Vec<Row> = inputs::texts().into_iter().map(|texts| compile_row(texts, Engine::new)).collect();
    rows.push(compile_row(inputs::scripts("100 scripts, tables of exactly their size"), Engine::with_exact_tables));
    rows.extend(inputs::loops().into_iter().map(run_row));
    rows.extend(inputs::cards().into_iter().map(card_row));
    rows.push(step_row());
    rows
}

fn timed(units: u64, work: impl FnOnce()) -> f64 {
    let begun = Instant::now();
    work();
    begun.elapsed().as_nanos() as f64 / units as f64
}

fn compile_row(texts: Texts, engine: fn(&str) -> Engine) -> Row {
    let bytes = texts.texts.iter().map(|text| text.len() as u64).sum();
    let rust: Vec<Rust> = texts.texts.iter().map(|text| Rust::new(text)).collect();
    let mut engine: Vec<Engine> = texts.texts.iter().map(|text| engine(text)).collect();
    Row {
        name: format!("compile {}", texts.name),
        unit: Unit::Byte,
        rust: Box::new(move || {
            let mut compiled = Vec::with_capacity(rust.len());
            timed(bytes, || compiled.extend(rust.iter().map(Rust::compile)))
        }),
        engine: Box::new(move || timed(bytes, || engine.iter_mut().for_each(Engine::compile))),
    }
}

fn both(text: &str) -> (Rust, Engine, u64) {
    let (mut rust, mut engine) = (Rust::new(text), Engine::new(text));
    let (ran, stepped) = (engine.run(), rust.stepped());
    assert_eq!(ran, stepped, "{text}");
    (rust, engine, ran.1)
}

fn run_row(run: Run) -> Row {
    let (mut rust, mut engine, steps) = both(&run.text);
    let times = BLOCK.div_ceil(steps);
    Row {
        name: format!("run {}", run.name),
        unit: Unit::Step,
        rust: Box::new(move || {
            timed(times * steps, || {
                for _ in 0..times {
                    rust.rewind();
                    black_box(rust.run());
                }
            })
        }),
        engine: Box::new(move || {
            timed(times * steps, || {
                for _ in 0..times {
                    engine.rewind();
                    black_box(engine.run());
                }
            })
        }),
    }
}

/// All that a host does for a card once the script is compiled: a fresh evaluation, and its run.
fn card_row(run: Run) -> Row {
    let (mut rust, mut engine, steps) = both(&run.text);
    let times = BLOCK.div_ceil(steps);
    Row {
        name: format!("card {}", run.name),
        unit: Unit::Card,
        rust: Box::new(move || {
            timed(times, || {
                for _ in 0..times {
                    rust.fresh();
                    black_box(rust.run());
                }
            })
        }),
        engine: Box::new(move || {
            timed(times, || {
                for _ in 0..times {
                    engine.fresh();
                    black_box(engine.run());
                }
            })
        }),
    }
}

fn step_row() -> Row {
    let (mut rust, mut engine, steps) = both(&inputs::counting_loop());
    assert!(steps > BLOCK);
    Row {
        name: "one step call, counting loop".into(),
        unit: Unit::Call,
        rust: Box::new(move || {
            rust.rewind();
            timed(BLOCK, || assert!((0..BLOCK).all(|_| rust.step() == 0)))
        }),
        engine: Box::new(move || {
            engine.rewind();
            timed(BLOCK, || assert!(engine.steps(BLOCK)))
        }),
    }
}
