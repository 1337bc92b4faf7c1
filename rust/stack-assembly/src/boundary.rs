//! The engine's calls on buffers that the host keeps: safe, and nothing added.
//!
//! The structs are those of `include/stack_assembly.h`, with a slice where it has a pointer and a length. [`Script`](crate::Script)
//! and [`Eval`](crate::Eval) keep the buffers for you; this module is for hosts that lay them out themselves.
//!
//! ```
//! use stack_assembly::boundary::{self, Lent, Tables};
//!
//! let (text, mut operators, mut labels) = (b"1 2 +", [0; 12], [0; 9]);
//! let compiled = boundary::compile(text, &mut operators, &mut labels);
//! assert_eq!((compiled.number, compiled.operator_count), (0, 3));
//!
//! let (mut operands, mut calls, mut memory) = ([0; 8], [0; 4], [0; 16]);
//! let mut lent = Lent {
//!     state: boundary::new(&mut memory),
//!     tables: Tables {
//!         text: text.as_slice().into(),
//!         operators: operators.as_slice().into(),
//!         labels: labels.as_slice().into(),
//!         operator_count: compiled.operator_count,
//!         label_count: compiled.label_count,
//!     },
//!     operand_stack: operands.as_mut_slice().into(),
//!     call_stack: calls.as_mut_slice().into(),
//!     memory: memory.as_mut_slice().into(),
//! };
//! let answer = boundary::run(&mut lent, 1_000);
//! assert_eq!((answer.number, answer.steps, lent.state.operand_depth), (8, 4, 1));
//! assert_eq!(operands[0], 3);
//! ```

use crate::ffi;

pub use crate::ffi::{Answer, Buffer, BufferMut, Compiled, Eval as Lent, Located, State, Tables};

/// One step.
#[inline]
pub fn step(lent: &mut Lent) -> Answer {
    ffi::stack_assembly_step(lent)
}

/// Steps until one gives an effect or a refusal, or the budget is used.
#[inline]
pub fn run(lent: &mut Lent, budget: u32) -> Answer {
    ffi::stack_assembly_run(lent, budget)
}

/// Removes the standing effect.
#[inline]
pub fn clear(lent: &mut Lent) -> Answer {
    ffi::stack_assembly_clear(lent)
}

/// Pushes a word onto the operand stack.
#[inline]
pub fn push(lent: &mut Lent, word: u32) -> Answer {
    ffi::stack_assembly_push(lent, word)
}

/// Pops a word from the operand stack.
#[inline]
pub fn pop(lent: &mut Lent) -> Answer {
    ffi::stack_assembly_pop(lent)
}

/// Reads a word of memory.
#[inline]
pub fn read(lent: &mut Lent, address: u32) -> Answer {
    ffi::stack_assembly_read(lent, address)
}

/// Writes a word of memory.
#[inline]
pub fn write(lent: &mut Lent, address: u32, word: u32) -> Answer {
    ffi::stack_assembly_write(lent, address, word)
}

/// Writes a text's records to the front of both tables.
pub fn compile(text: &[u8], operators: &mut [u32], labels: &mut [u32]) -> Compiled {
    // SAFETY: each pointer and length is a slice's; those that are written to are borrowed alone.
    unsafe {
        ffi::stack_assembly_compile(
            text.as_ptr(),
            text.len(),
            operators.as_mut_ptr(),
            operators.len(),
            labels.as_mut_ptr(),
            labels.len(),
        )
    }
}

/// Zeroes the memory, and answers the fresh state.
pub fn new(memory: &mut [u32]) -> State {
    // SAFETY: as above.
    unsafe { ffi::stack_assembly_new(memory.as_mut_ptr(), memory.len()) }
}

/// Where an operator stands in the text.
pub fn source(tables: &Tables, index: u32) -> Located {
    ffi::stack_assembly_source(tables, index)
}

/// The call stack's entry at a place, 0 being the top, minus 1.
pub fn call_stack(call_depth: usize, call_stack: &[u32], place: usize) -> Answer {
    // SAFETY: the only call that it is lent to writes nothing.
    let call_stack = unsafe { BufferMut::unwritten(call_stack) };
    let state = State { call_depth, ..State::default() };
    ffi::stack_assembly_call_stack(&Lent { state, call_stack, ..Lent::default() }, place)
}
