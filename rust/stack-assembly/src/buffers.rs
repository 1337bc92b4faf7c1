//! What an evaluation works in, and hands on when it is over.

/// # How many words an evaluation is lent
///
/// The defaults are those of the program `tally`.
#[derive(Clone, Copy, Debug, Eq, Hash, PartialEq)]
pub struct Sizes {
    pub operand_stack: usize,
    pub call_stack: usize,
    pub memory: usize,
}

impl Default for Sizes {
    fn default() -> Self {
        Sizes { operand_stack: 1024, call_stack: 256, memory: 1024 }
    }
}

/// # The buffers of an evaluation: two stacks and a memory
///
/// [`Eval::with_buffers`](crate::Eval::with_buffers) begins an evaluation in them, and
/// [`Eval::into_buffers`](crate::Eval::into_buffers) hands them on. As long as no evaluation works in them every word is zero,
/// so that nothing goes from one evaluation to the next. Two of the same sizes are therefore equal.
///
/// ```
/// use stack_assembly::{Buffers, Eval, Script, Sizes};
///
/// let sizes = Sizes { operand_stack: 8, call_stack: 2, memory: 4 };
/// let mut buffers = Buffers::with_sizes(sizes);
///
/// let script = Script::compile("0 read 113 * 3 1 copy write yield")?;
/// for score in [71, 88] {
///     let mut eval = Eval::with_buffers(buffers);
///     eval.write(0, score)?;
///     eval.run(&script, 1_000)?;
///     assert_eq!(eval.read(3)?.to_i32(), 113 * score);
///     buffers = eval.into_buffers();
///     assert_eq!(buffers, Buffers::with_sizes(sizes));
/// }
/// # Ok::<(), Box<dyn std::error::Error>>(())
/// ```
#[derive(Clone, Debug, Eq, PartialEq)]
pub struct Buffers {
    pub(crate) operand_stack: Box<[u32]>,
    pub(crate) call_stack: Box<[u32]>,
    pub(crate) memory: Box<[u32]>,
}

impl Buffers {
    /// # New buffers of these sizes, in words
    pub fn with_sizes(sizes: Sizes) -> Buffers {
        Buffers {
            operand_stack: vec![0; sizes.operand_stack].into(),
            call_stack: vec![0; sizes.call_stack].into(),
            memory: vec![0; sizes.memory].into(),
        }
    }

    /// # How many words each of them has
    pub fn sizes(&self) -> Sizes {
        Sizes { operand_stack: self.operand_stack.len(), call_stack: self.call_stack.len(), memory: self.memory.len() }
    }
}
