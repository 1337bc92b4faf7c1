//! Deliberate faults, each in a wrapper of the model: the comparison has to find every one of them.

mod beside;
mod calls;
mod compiling;
mod released;
mod steps;
mod words;

use crate::check::Counts;
use crate::kinds::KINDS;
use crate::runs::{Found, difference, found};
use model::{Call, Engine, Lent, Model};
use std::time::{Duration, Instant};

/// What is wrong, and where: one of the engine's functions in the model's place.
pub struct Fault {
    name: &'static str,
    wrong: Wrong,
}

type Compile = fn(text: &[u8], operators: &mut [u32], labels: &mut [u32]) -> [u64; 4];

enum Wrong {
    Compile(Compile),
    Fresh(fn(&mut [u32]) -> [u64; 5]),
    Call(fn(Call, &mut Lent) -> [u64; 8]),
    /// Mends each step that the model made, in a run too.
    Step(steps::Mend),
    Source(fn(usize, &[u8], &[u32], u32) -> [u64; 5]),
    CallStack(fn(usize, &[u32], usize) -> [u64; 3]),
}

struct Faulty<'a>(&'a Wrong);

impl Engine for Faulty<'_> {
    fn compile(&self, text: &[u8], operators: &mut [u32], labels: &mut [u32]) -> [u64; 4] {
        if let Wrong::Compile(wrong) = self.0 { wrong(text, operators, labels) } else { Model.compile(text, operators, labels) }
    }

    fn fresh(&self, memory: &mut [u32]) -> [u64; 5] {
        if let Wrong::Fresh(wrong) = self.0 { wrong(memory) } else { Model.fresh(memory) }
    }

    fn call(&self, call: Call, lent: &mut Lent) -> [u64; 8] {
        match self.0 {
            Wrong::Call(wrong) => wrong(call, lent),
            Wrong::Step(mend) => steps::stepwise(call, lent, *mend),
            _ => Model.call(call, lent),
        }
    }

    fn source(&self, operator_count: usize, text: &[u8], operators: &[u32], index: u32) -> [u64; 5] {
        let right = if let Wrong::Source(wrong) = self.0 { *wrong } else { |a, b: &_, c: &_, d| Model.source(a, b, c, d) };
        right(operator_count, text, operators, index)
    }

    fn call_stack(&self, call_depth: usize, call_stack: &[u32], place: usize) -> [u64; 3] {
        let right = if let Wrong::CallStack(wrong) = self.0 { *wrong } else { |a, b: &_, c| Model.call_stack(a, b, c) };
        right(call_depth, call_stack, place)
    }
}

const PATIENCE: Duration = Duration::from_secs(60);

/// Looks for each fault, and prints the first case that shows it, made short.
pub fn run(seed: u64) -> bool {
    let parts = [compiling::faults(), steps::faults(), words::faults(), calls::faults(), beside::faults(), released::faults()];
    let faults: Vec<Fault> = parts.into_iter().flatten().collect();
    std::panic::set_hook(Box::new(|_| {}));
    let mut missed = 0;
    for (number, fault) in (1..).zip(&faults) {
        println!("{number}. {}", fault.name);
        match first_case(&Faulty(&fault.wrong), seed) {
            Some((kind, found)) => println!("   {kind}: {}\n   {}", found.difference, found.case),
            None => {
                missed += 1;
                println!("   NOT FOUND");
            }
        }
    }
    println!("{} faults, {missed} not found", faults.len());
    missed == 0
}

/// Some cases of each kind in turn, until one fails.
fn first_case(engine: &dyn Engine, seed: u64) -> Option<(&'static str, Found)> {
    let begun = Instant::now();
    let mut from = 0;
    while begun.elapsed() < PATIENCE {
        for kind in &KINDS {
            let batch = if kind.name == "long texts" { 2 } else { 200 };
            for number in from * batch..(from + 1) * batch {
                let case = kind.case(seed, number);
                if difference(&case, engine, &mut Counts::default()).is_some() {
                    return Some((kind.name, found(case, engine)));
                }
            }
        }
        from += 1;
    }
    None
}
