//! # StackAssembly in Rust hosts
//!
//! A safe crate over the engine that is proved in Rattle, for hosts that used the Rust engine. Names are the original's where
//! they still mean the same. What changed, by design: sizes are chosen by the host, a run has a budget, what the engine refuses
//! is an error, and a word that is released from a stack becomes zero, so that [`Buffers`] can go to the next evaluation.
//!
//! ```
//! use stack_assembly::{Effect, Eval, Script};
//!
//! let script = Script::compile("0 read 1 read + yield")?;
//!
//! let mut eval = Eval::new();
//! eval.write(0, 36)?;
//! eval.write(1, -4)?;
//!
//! let ran = eval.run(&script, 1_000)?;
//! assert_eq!(ran.effect, Effect::Yield);
//! assert_eq!(eval.pop()?.to_i32(), 32);
//! # Ok::<(), Box<dyn std::error::Error>>(())
//! ```

pub mod boundary;
mod buffers;
mod effect;
mod eval;
pub mod ffi;
mod refusal;
mod script;
mod value;

pub use buffers::{Buffers, Sizes};
pub use effect::Effect;
pub use eval::{Eval, Ran};
pub use refusal::{Refusal, Stopped};
pub use script::{OperatorIndex, Script};
pub use value::{Value, Words};

/// The Rust example of docs/HOSTS.md, for the tests.
#[cfg(doctest)]
#[doc = include_str!("../../../docs/HOSTS.md")]
pub struct Hosts;
