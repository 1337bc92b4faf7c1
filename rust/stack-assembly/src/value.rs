//! Words, read as signed or unsigned.

use std::fmt;

/// # A unit of data
///
/// The language is untyped: a word of 32 bits is signed (two's complement), unsigned or a condition, as its reader likes.
///
/// ```
/// use stack_assembly::Value;
///
/// assert_eq!(Value::from(-1i32).to_u32(), 4294967295);
/// assert_eq!(Value::from(5u32).to_i32(), 5);
/// assert!(Value::from(true).to_bool());
/// ```
#[derive(Clone, Copy, Default, Eq, Hash, PartialEq)]
#[repr(transparent)]
pub struct Value {
    word: u32,
}

impl Value {
    pub fn to_i32(self) -> i32 {
        self.word as i32
    }

    pub fn to_u32(self) -> u32 {
        self.word
    }

    /// Zero is false, all else is true.
    pub fn to_bool(self) -> bool {
        self.word != 0
    }
}

impl From<i32> for Value {
    fn from(value: i32) -> Self {
        Value { word: value as u32 }
    }
}

impl From<u32> for Value {
    fn from(word: u32) -> Self {
        Value { word }
    }
}

impl From<bool> for Value {
    fn from(value: bool) -> Self {
        Value { word: value.into() }
    }
}

impl fmt::Debug for Value {
    fn fmt(&self, f: &mut fmt::Formatter) -> fmt::Result {
        self.word.fmt(f)
    }
}

/// # Words to look at: the operand stack from bottom to top, or the memory
#[derive(Clone, Copy, Debug, Eq, PartialEq)]
pub struct Words<'a> {
    words: &'a [u32],
}

impl<'a> Words<'a> {
    pub(crate) fn new(words: &'a [u32]) -> Self {
        Words { words }
    }

    pub fn to_u32_slice(self) -> &'a [u32] {
        self.words
    }

    pub fn to_i32_slice(self) -> &'a [i32] {
        // SAFETY: both types have the same size and alignment, and any bits are a value of either.
        unsafe { std::slice::from_raw_parts(self.words.as_ptr().cast(), self.words.len()) }
    }

    pub fn len(self) -> usize {
        self.words.len()
    }

    pub fn is_empty(self) -> bool {
        self.words.is_empty()
    }
}
