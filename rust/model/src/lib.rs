//! The definition (docs/DEFINITION.md) in plain Rust: what compile, the seven calls, the source of an operator and the call
//! stack's list answer and leave. It is written from the definition's sentences, and not from the engine; it uses nothing of the
//! standard library that they describe (UTF-8, white space, parsing, shifts), and prefers their words to speed. A word that is
//! released from a stack becomes zero, so that no word of a stack's buffer is left open.

mod beside;
mod compile;
mod engine;
mod host;
mod machine;
mod numbers;
mod operators;
mod step;
mod text;
mod tokens;

pub use engine::{Call, Engine, Lent, State};
pub use host::{Model, Performed};
pub use operators::WORDS;
