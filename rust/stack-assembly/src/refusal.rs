//! Refusals: what the engine answers instead of working, leaving everything as it was.

use std::error::Error;
use std::fmt;

/// How many bytes a text may have.
pub(crate) const LONGEST_TEXT: usize = 65_535;

/// # Why a call was refused
///
/// A refused call changes nothing. A refused run has made the steps that [`Stopped`] counts, and no more.
#[derive(Clone, Copy, Debug, Eq, Hash, PartialEq)]
#[non_exhaustive]
pub enum Refusal {
    /// 21: the text is not UTF-8 from this offset on.
    IllFormedText { offset: usize },
    /// 22: the text has more than 65,535 bytes.
    TextTooLong,
    /// 23: the text has this many operators, more than the table has room for.
    TooManyOperators { count: usize },
    /// 24: the text has this many labels, more than the table has room for.
    TooManyLabels { count: usize },
    /// 25: a depth or count is over its buffer's capacity, or the effect's number is above 11. A [`Script`](crate::Script) and
    /// an [`Eval`](crate::Eval) never lend such a state.
    ForgedState,
    /// 26: a record is damaged, at this place in its table. A [`Script`](crate::Script) never has one.
    DamagedRecord { place: usize },
    /// 27: a word was to be pushed onto a full operand stack.
    OperandStackFull { depth: usize },
    /// 28: a call met a full call stack.
    CallStackFull { depth: usize },
    /// 29: the budget is used, and no effect was triggered. Evaluation goes on at this operator.
    BudgetUsed { next: u32 },
    /// 30: the host popped from an empty operand stack.
    OperandStackEmpty,
    /// 31: an address, an operator's index or a place in the call stack that is not there.
    NotThere { place: u64 },
}

impl Refusal {
    /// The refusal with a number and a value, if there is one.
    pub fn from_answer(number: u32, value: u64) -> Option<Refusal> {
        let size = value as usize;
        Some(match number {
            21 => Refusal::IllFormedText { offset: size },
            22 => Refusal::TextTooLong,
            23 => Refusal::TooManyOperators { count: size },
            24 => Refusal::TooManyLabels { count: size },
            25 => Refusal::ForgedState,
            26 => Refusal::DamagedRecord { place: size },
            27 => Refusal::OperandStackFull { depth: size },
            28 => Refusal::CallStackFull { depth: size },
            29 => Refusal::BudgetUsed { next: value as u32 },
            30 => Refusal::OperandStackEmpty,
            31 => Refusal::NotThere { place: value },
            _ => return None,
        })
    }

    /// The refusal's number at the C boundary, 21 to 31.
    pub fn number(self) -> u32 {
        match self {
            Refusal::IllFormedText { .. } => 21,
            Refusal::TextTooLong => 22,
            Refusal::TooManyOperators { .. } => 23,
            Refusal::TooManyLabels { .. } => 24,
            Refusal::ForgedState => 25,
            Refusal::DamagedRecord { .. } => 26,
            Refusal::OperandStackFull { .. } => 27,
            Refusal::CallStackFull { .. } => 28,
            Refusal::BudgetUsed { .. } => 29,
            Refusal::OperandStackEmpty => 30,
            Refusal::NotThere { .. } => 31,
        }
    }

    /// The value that goes with the number there.
    pub fn value(self) -> u64 {
        match self {
            Refusal::IllFormedText { offset: size }
            | Refusal::TooManyOperators { count: size }
            | Refusal::TooManyLabels { count: size }
            | Refusal::DamagedRecord { place: size }
            | Refusal::OperandStackFull { depth: size }
            | Refusal::CallStackFull { depth: size } => size as u64,
            Refusal::TextTooLong => LONGEST_TEXT as u64,
            Refusal::BudgetUsed { next } => next.into(),
            Refusal::NotThere { place } => place,
            Refusal::ForgedState | Refusal::OperandStackEmpty => 0,
        }
    }

    /// Whether a larger table, stack or budget would have let the call go on.
    pub fn is_limit(self) -> bool {
        matches!(self.number(), 23 | 24 | 27 | 28 | 29)
    }
}

impl fmt::Display for Refusal {
    fn fmt(&self, f: &mut fmt::Formatter) -> fmt::Result {
        match self {
            Refusal::IllFormedText { offset } => write!(f, "the text is not UTF-8 at byte {offset}"),
            Refusal::TextTooLong => write!(f, "the text has more than 65535 bytes"),
            Refusal::TooManyOperators { count } => write!(f, "the text has {count} operators, more than there is room for"),
            Refusal::TooManyLabels { count } => write!(f, "the text has {count} labels, more than there is room for"),
            Refusal::ForgedState => write!(f, "the state does not fit its buffers"),
            Refusal::DamagedRecord { place } => write!(f, "the record at place {place} of its table is damaged"),
            Refusal::OperandStackFull { depth } => write!(f, "the operand stack is full with {depth} words"),
            Refusal::CallStackFull { depth } => write!(f, "the call stack is full with {depth} entries"),
            Refusal::BudgetUsed { next } => write!(f, "the budget is used; the next operator is {next}"),
            Refusal::OperandStackEmpty => write!(f, "the operand stack is empty"),
            Refusal::NotThere { place } => write!(f, "there is nothing at {place}"),
        }
    }
}

impl Error for Refusal {}

/// # A run that a refusal ended
///
/// It has made `steps` steps, none of which triggered an effect, and can be continued: with a larger budget by another run.
#[derive(Clone, Copy, Debug, Eq, Hash, PartialEq)]
pub struct Stopped {
    pub refusal: Refusal,
    pub steps: u32,
}

impl fmt::Display for Stopped {
    fn fmt(&self, f: &mut fmt::Formatter) -> fmt::Result {
        write!(f, "{} (after {} steps)", self.refusal, self.steps)
    }
}

impl Error for Stopped {
    fn source(&self) -> Option<&(dyn Error + 'static)> {
        Some(&self.refusal)
    }
}
