//! What grows with what: compile by text, a step by script, buffers and labels, a card by how often its operators are met.

use crate::inputs::{differentials, labels, mixed_text, straight};
use crate::rows::BLOCK;
use crate::sides::{Engine, Rust};
use std::hint::black_box;
use std::time::Instant;

/// The best of many rounds, in nanoseconds for a unit.
fn best(rounds: u32, units: u64, mut work: impl FnMut()) -> f64 {
    let round = |_| {
        let begun = Instant::now();
        work();
        begun.elapsed().as_nanos() as f64 / units as f64
    };
    (0..rounds).map(round).fold(f64::INFINITY, f64::min)
}

fn run_ns(rounds: u32, text: &str, words: usize) -> (f64, f64) {
    let (mut rust, mut engine) = (Rust::new(text), Engine::with_words(text, words));
    let (_, steps) = engine.run();
    let times = BLOCK.div_ceil(steps);
    let rust_ns = best(rounds, times * steps, || {
        for _ in 0..times {
            rust.rewind();
            black_box(rust.run());
        }
    });
    let engine_ns = best(rounds, times * steps, || {
        for _ in 0..times {
            engine.rewind();
            black_box(engine.run());
        }
    });
    (rust_ns, engine_ns)
}

fn card_ns(rounds: u32, text: &str) -> (f64, f64) {
    let (mut rust, mut engine) = (Rust::new(text), Engine::new(text));
    let times = BLOCK.div_ceil(engine.run().1);
    let rust_ns = best(rounds, times, || {
        for _ in 0..times {
            rust.fresh();
            black_box(rust.run());
        }
    });
    let engine_ns = best(rounds, times, || {
        for _ in 0..times {
            engine.fresh();
            black_box(engine.run());
        }
    });
    (rust_ns, engine_ns)
}

fn heading(what: &str, of: &str, unit: &str) {
    println!("\n{what}\n\n| {of} | Rust, ns a {unit} | engine, ns a {unit} |\n|---:|---:|---:|");
}

pub fn print(rounds: u32) {
    heading("Compile by the text's length", "bytes", "byte");
    for length in [1_000, 2_000, 4_000, 8_000, 16_000, 32_000, 65_000] {
        let text = mixed_text(length);
        let (rust, mut engine) = (Rust::new(&text), Engine::new(&text));
        let rust_ns = best(rounds, text.len() as u64, || drop(black_box(rust.compile())));
        let engine_ns = best(rounds, text.len() as u64, || engine.compile());
        println!("| {length} | {rust_ns:.2} | {engine_ns:.2} |");
    }
    heading("A step by the script's length: a loop after so many other operators", "operators before it", "step");
    for before in [0, 10, 100, 1_000, 10_000] {
        let text = format!("@start jump {} start: 5000 loop: 1 - 0 copy @loop jump_if", "yield ".repeat(before));
        let (rust, engine) = run_ns(rounds, &text, 1024);
        println!("| {before} | {rust:.2} | {engine:.2} |");
    }
    heading("A step by the sizes of operand stack and memory", "words of each", "step");
    for words in [16, 256, 4_096, 65_536, 1_048_576] {
        let (rust, engine) = run_ns(rounds, "5000 loop: 1 - 0 copy @loop jump_if", words);
        println!("| {words} | {rust:.2} | {engine:.2} |");
    }
    heading("A step by the labels before the one that is meant: one step in five is a reference", "labels before it", "step");
    for before in [0, 1, 10, 50, 200, 1_000] {
        let text = format!("5000 {} loop: 1 - 0 copy @loop jump_if", labels(before));
        let (rust, engine) = run_ns(rounds, &text, 1024);
        println!("| {before} | {rust:.2} | {engine:.2} |");
    }
    heading("A run alone, without the fresh evaluation: each operator is met once", "operators", "step");
    for count in [20, 50, 100, 300, 1_000] {
        let (rust, engine) = run_ns(rounds, &straight(count).text, 1024);
        println!("| {count} | {rust:.2} | {engine:.2} |");
    }
    heading(
        "A card by how often its operators are met: two figures of differential.stack, worked out so many times",
        "times",
        "card",
    );
    for times in [1, 2, 3, 5, 9] {
        let (rust, engine) = card_ns(rounds, &differentials(times));
        println!("| {times} | {rust:.0} | {engine:.0} |");
    }
}
