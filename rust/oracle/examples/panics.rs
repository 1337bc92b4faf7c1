//! Which scripts make the Rust panic? Each word is tried on edge values, and jumps to the last index there is.
//!
//! ```text
//! cargo run --offline -p oracle --example panics
//! cargo run --offline -p oracle --example panics --config profile.dev.overflow-checks=true
//! ```

use oracle::{Eval, Script};
use std::panic::catch_unwind;

const WORDS: [&str; 30] = [
    "*", "+", "-", "/", "<", "<=", "=", ">", ">=", "and", "or", "xor", "count_ones", "leading_zeros", "trailing_zeros",
    "rotate_left", "rotate_right", "shift_left", "shift_right", "copy", "drop", "jump", "jump_if", "call", "call_either", "return",
    "assert", "yield", "read", "write",
];
const EDGES: [i64; 9] = [0, 1, 31, 32, -1, 2147483647, -2147483648, 1024, 4294967295];

fn panics(text: &str) -> bool {
    let text = text.to_string();
    catch_unwind(move || {
        let script = Script::compile(&text);
        let mut eval = Eval::new();
        (0..8).any(|_| eval.step(&script).is_some())
    })
    .is_err()
}

/// Up to three operands, then the word.
fn texts(word: &str) -> Vec<String> {
    let mut texts = vec![word.to_string()];
    for b in EDGES {
        texts.push(format!("{b} {word}"));
    }
    for (a, b) in EDGES.iter().flat_map(|a| EDGES.map(|b| (a, b))) {
        texts.push(format!("{a} {b} {word}"));
    }
    for (a, b, c) in EDGES.iter().flat_map(|a| EDGES.iter().flat_map(move |b| EDGES.map(|c| (a, b, c)))) {
        texts.push(format!("{a} {b} {c} {word}"));
    }
    texts
}

fn main() {
    std::panic::set_hook(Box::new(|_| {}));
    for word in WORDS {
        let texts = texts(word);
        let panicking: Vec<&String> = texts.iter().filter(|text| panics(text)).collect();
        if let Some(shortest) = panicking.iter().min_by_key(|text| text.len()) {
            println!("{word}: {} of {} scripts panic, as {shortest}", panicking.len(), texts.len());
        }
    }
    println!("done");
}
