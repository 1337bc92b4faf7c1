//! Effects: how a script tells its host that something happened.

use std::fmt;

/// # An event that a script triggers, to signal a condition
///
/// An effect stands until it is cleared by [`Eval::clear_effect`](crate::Eval::clear_effect). Most signal an error from which a
/// script does not expect to recover. [`Effect::Yield`] hands control to the host, and [`Effect::OutOfOperators`] and
/// [`Effect::Return`] are the regular ends.
///
/// ```
/// use stack_assembly::{Effect, Eval, Script};
///
/// // This script increments a number in a loop, and yields each time.
/// let script = Script::compile("
///     0
///
///     increment:
///         1 +
///         yield
///         @increment jump
/// ")?;
///
/// let mut eval = Eval::new();
///
/// let ran = eval.run(&script, 1_000)?;
/// assert_eq!(ran.effect, Effect::Yield);
/// assert_eq!(eval.operand_stack().to_u32_slice(), &[1]);
///
/// // To let the script continue, the effect is cleared.
/// eval.clear_effect();
///
/// let ran = eval.run(&script, 1_000)?;
/// assert_eq!(ran.effect, Effect::Yield);
/// assert_eq!(eval.operand_stack().to_u32_slice(), &[2]);
/// # Ok::<(), Box<dyn std::error::Error>>(())
/// ```
#[derive(Clone, Copy, Debug, Eq, Hash, Ord, PartialEq, PartialOrd)]
#[repr(u32)]
pub enum Effect {
    /// `assert` found zero.
    AssertionFailed = 1,
    /// `/` found a divisor of zero.
    DivisionByZero,
    /// `/` was asked to divide -2147483648 by -1. All other arithmetic wraps.
    IntegerOverflow,
    /// `read` or `write` found an address outside memory.
    InvalidAddress,
    /// `copy` or `drop` found an index at or past the stack's depth.
    InvalidOperandStackIndex,
    /// No label has a reference's name.
    InvalidReference,
    /// An operator found fewer operands than it takes. Those that it popped before stay popped.
    OperandStackUnderflow,
    /// Evaluation is past the last operator: the regular end.
    OutOfOperators,
    /// `return` found an empty call stack: a regular end, too.
    Return,
    /// An identifier is none of the language's words.
    UnknownIdentifier,
    /// `yield`: the script hands control to the host.
    Yield,
}

impl Effect {
    /// All effects in the order of their numbers, from 1.
    pub const ALL: [Effect; 11] = [
        Effect::AssertionFailed,
        Effect::DivisionByZero,
        Effect::IntegerOverflow,
        Effect::InvalidAddress,
        Effect::InvalidOperandStackIndex,
        Effect::InvalidReference,
        Effect::OperandStackUnderflow,
        Effect::OutOfOperators,
        Effect::Return,
        Effect::UnknownIdentifier,
        Effect::Yield,
    ];

    /// The effect's number at the C boundary, 1 to 11.
    pub fn number(self) -> u32 {
        self as u32
    }

    /// The effect with a number, if there is one.
    pub fn from_number(number: u32) -> Option<Effect> {
        Effect::ALL.get(number.checked_sub(1)? as usize).copied()
    }
}

impl fmt::Display for Effect {
    fn fmt(&self, f: &mut fmt::Formatter) -> fmt::Result {
        f.write_str(match self {
            Effect::AssertionFailed => "an assertion failed",
            Effect::DivisionByZero => "division by zero",
            Effect::IntegerOverflow => "the quotient does not fit 32 bits",
            Effect::InvalidAddress => "an address is outside memory",
            Effect::InvalidOperandStackIndex => "an index is past the operand stack's depth",
            Effect::InvalidReference => "a reference has no label",
            Effect::OperandStackUnderflow => "an operator found too few operands",
            Effect::OutOfOperators => "past the last operator",
            Effect::Return => "return from the outermost level",
            Effect::UnknownIdentifier => "an identifier is no word of the language",
            Effect::Yield => "the script yields",
        })
    }
}
