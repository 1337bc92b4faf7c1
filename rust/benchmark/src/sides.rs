//! The Rust and the engine, each ready to do one thing again and again.

use oracle::eval::peek;
use oracle::{Eval, Script, number};
use stack_assembly::boundary::{self, Lent, State, Tables};
use std::hint::black_box;

/// A script's tables and an evaluation's buffers.
pub struct Engine {
    text: Vec<u8>,
    operators: Vec<u32>,
    labels: Vec<u32>,
    counts: (usize, usize),
    operand_stack: Vec<u32>,
    call_stack: Vec<u32>,
    memory: Vec<u32>,
    state: State,
}

impl Engine {
    /// In tally's sizes.
    pub fn new(text: &str) -> Engine {
        Engine::with_words(text, 1024)
    }

    pub fn with_words(text: &str, words: usize) -> Engine {
        let most = text.len() / 2 + 1;
        let mut engine = Engine {
            text: text.into(),
            operators: vec![0; 4 * most],
            labels: vec![0; 3 * most],
            counts: (0, 0),
            operand_stack: vec![0; words],
            call_stack: vec![0; words.min(256)],
            memory: vec![0; words],
            state: State::default(),
        };
        engine.compile();
        engine
    }

    /// With tables that have no room for more than the script's records.
    pub fn with_exact_tables(text: &str) -> Engine {
        let mut engine = Engine::new(text);
        engine.operators.truncate(4 * engine.counts.0);
        engine.labels.truncate(3 * engine.counts.1);
        engine
    }

    pub fn compile(&mut self) {
        let compiled = boundary::compile(black_box(&self.text), &mut self.operators, &mut self.labels);
        self.counts = (compiled.operator_count, compiled.label_count);
    }

    pub fn fresh(&mut self) {
        black_box(boundary::new(&mut self.memory));
        self.state = State::default();
    }

    pub fn rewind(&mut self) {
        self.state = State::default();
    }

    fn lent(&mut self) -> Lent<'_> {
        Lent {
            state: self.state,
            tables: Tables {
                text: self.text.as_slice().into(),
                operators: self.operators.as_slice().into(),
                labels: self.labels.as_slice().into(),
                operator_count: self.counts.0,
                label_count: self.counts.1,
            },
            operand_stack: self.operand_stack.as_mut_slice().into(),
            call_stack: self.call_stack.as_mut_slice().into(),
            memory: self.memory.as_mut_slice().into(),
        }
    }

    /// The effect that ends a run, and its steps.
    pub fn run(&mut self) -> (u64, u64) {
        let answer = boundary::run(&mut self.lent(), u32::MAX);
        (answer.number.into(), answer.steps.into())
    }

    /// Makes so many steps, each by a call of its own on the same evaluation; whether none had an effect.
    pub fn steps(&mut self, count: u64) -> bool {
        let mut lent = self.lent();
        (0..count).all(|_| boundary::step(&mut lent).number == 0)
    }
}

pub struct Rust {
    text: String,
    script: Script,
    eval: Eval,
}

impl Rust {
    pub fn new(text: &str) -> Rust {
        Rust { text: text.into(), script: Script::compile(text), eval: Eval::new() }
    }

    pub fn compile(&self) -> Script {
        Script::compile(black_box(&self.text))
    }

    pub fn fresh(&mut self) {
        self.eval = Eval::new();
    }

    pub fn rewind(&mut self) {
        peek::rewind(&mut self.eval);
    }

    pub fn run(&mut self) -> u64 {
        number(self.eval.run(black_box(&self.script)).0).into()
    }

    pub fn step(&mut self) -> u64 {
        self.eval.step(black_box(&self.script)).map_or(0, |(effect, _)| number(effect).into())
    }

    /// The effect that ends a run, and its steps.
    pub fn stepped(&mut self) -> (u64, u64) {
        (1..).map(|made| (self.step(), made)).find(|&(effect, _)| effect != 0).expect("it ends")
    }
}
