//! Compiled scripts.

use crate::boundary::{self, Compiled, Tables};
use crate::refusal::{LONGEST_TEXT, Refusal};
use std::fmt;
use std::ops::Range;

/// # A compiled script
///
/// It keeps a copy of its text, and tables of operators and labels.
///
/// ```
/// use stack_assembly::{Refusal, Script};
///
/// let script = Script::compile("1 2 +")?;
/// assert_eq!(script.operator_count(), 3);
///
/// // Bytes that are no text are refused.
/// assert_eq!(Script::compile(b"1 \xC2").unwrap_err(), Refusal::IllFormedText { offset: 2 });
/// # Ok::<(), Refusal>(())
/// ```
#[derive(Clone, Debug)]
pub struct Script {
    text: Box<[u8]>,
    operators: Box<[u32]>,
    labels: Box<[u32]>,
    operator_count: usize,
    label_count: usize,
}

impl Script {
    /// # Compile a script, with as much room for operators and labels as its text needs
    pub fn compile(text: impl AsRef<[u8]>) -> Result<Script, Refusal> {
        let text = text.as_ref();
        let most = text.len().min(LONGEST_TEXT).div_ceil(2);
        Script::compile_within(text, most, most)
    }

    /// # Compile a script that has at most so many operators and labels
    ///
    /// ```
    /// use stack_assembly::{Refusal, Script};
    ///
    /// let refusal = Script::compile_within("1 2 +", 2, 0).unwrap_err();
    /// assert_eq!(refusal, Refusal::TooManyOperators { count: 3 });
    /// ```
    pub fn compile_within(text: impl AsRef<[u8]>, operators: usize, labels: usize) -> Result<Script, Refusal> {
        let text = text.as_ref();
        let mut operators = vec![0; operators.saturating_mul(4)];
        let mut labels = vec![0; labels.saturating_mul(3)];
        let compiled = boundary::compile(text, &mut operators, &mut labels);
        if let Some(refusal) = Refusal::from_answer(compiled.number, compiled.value as u64) {
            return Err(refusal);
        }
        let Compiled { operator_count, label_count, .. } = compiled;
        operators.truncate(4 * operator_count);
        labels.truncate(3 * label_count);
        Ok(Script { text: text.into(), operators: operators.into(), labels: labels.into(), operator_count, label_count })
    }

    /// # Map an operator to the source code
    ///
    /// The range can be used to index into [`Script::text`]. An index that is not there is refused with
    /// [`Refusal::NotThere`].
    ///
    /// ```
    /// use stack_assembly::{OperatorIndex, Script};
    ///
    /// let script = Script::compile("1 2 +")?;
    /// assert_eq!(script.map_operator_to_source(&OperatorIndex::from(2))?, 4..5);
    /// assert!(script.map_operator_to_source(&OperatorIndex::from(3)).is_err());
    /// # Ok::<(), stack_assembly::Refusal>(())
    /// ```
    pub fn map_operator_to_source(&self, operator: &OperatorIndex) -> Result<Range<usize>, Refusal> {
        let located = boundary::source(&self.tables(), operator.value);
        match Refusal::from_answer(located.answer.number, located.answer.value as u64) {
            Some(refusal) => Err(refusal),
            None => Ok(located.start..located.end),
        }
    }

    /// # The text, as it was compiled
    pub fn text(&self) -> &str {
        std::str::from_utf8(&self.text).expect("compile accepts UTF-8 alone")
    }

    pub fn operator_count(&self) -> usize {
        self.operator_count
    }

    pub fn label_count(&self) -> usize {
        self.label_count
    }

    pub(crate) fn tables(&self) -> Tables<'_> {
        Tables {
            text: (&*self.text).into(),
            operators: (&*self.operators).into(),
            labels: (&*self.labels).into(),
            operator_count: self.operator_count,
            label_count: self.label_count,
        }
    }
}

/// # Refers to an operator in a script
#[derive(Clone, Copy, Debug, Default, Eq, Hash, Ord, PartialEq, PartialOrd)]
pub struct OperatorIndex {
    value: u32,
}

impl OperatorIndex {
    pub fn value(self) -> u32 {
        self.value
    }
}

impl From<u32> for OperatorIndex {
    fn from(value: u32) -> Self {
        OperatorIndex { value }
    }
}

impl fmt::Display for OperatorIndex {
    fn fmt(&self, f: &mut fmt::Formatter) -> fmt::Result {
        self.value.fmt(f)
    }
}
