//! The structs and functions of `include/stack_assembly.h`, as they are declared there.
//!
//! Where the header has a pointer and its length, a struct has a [`Buffer`] or a [`BufferMut`], which is made of a slice and nothing
//! else. So whoever has an [`Eval`] or [`Tables`] can lend it, and the functions that take no more are safe to call.

use std::marker::PhantomData;
use std::mem::{offset_of, size_of};
use std::ptr;

/// A slice that is lent to be read: its pointer, then its length.
#[derive(Clone, Copy, Debug)]
#[repr(C)]
pub struct Buffer<'a, T> {
    start: *const T,
    len: usize,
    lent: PhantomData<&'a [T]>,
}

/// A slice that is lent to be written, and to nobody else: its pointer, then its length.
#[derive(Debug)]
#[repr(C)]
pub struct BufferMut<'a> {
    start: *mut u32,
    len: usize,
    lent: PhantomData<&'a mut [u32]>,
}

/// The five numbers of the state. Any numbers may be lent: what does not fit the buffers is refused with 25.
#[derive(Clone, Copy, Debug, Default, Eq, PartialEq)]
#[repr(C)]
pub struct State {
    pub next_operator: u32,
    pub operand_depth: usize,
    pub call_depth: usize,
    pub effect: u32,
    pub effect_operator: u32,
}

/// A text, its tables as compile left them, and both counts.
#[derive(Clone, Copy, Debug, Default)]
#[repr(C)]
pub struct Tables<'a> {
    pub text: Buffer<'a, u8>,
    pub operators: Buffer<'a, u32>,
    pub labels: Buffer<'a, u32>,
    pub operator_count: usize,
    pub label_count: usize,
}

/// All that each of the seven calls is lent, and the state that it leaves. In both stacks a call leaves a zero for each word that
/// it releases, and the words at and above the greatest depth that it reaches as they were.
#[derive(Debug, Default)]
#[repr(C)]
pub struct Eval<'a> {
    pub state: State,
    pub tables: Tables<'a>,
    pub operand_stack: BufferMut<'a>,
    pub call_stack: BufferMut<'a>,
    pub memory: BufferMut<'a>,
}

/// A number, the steps that count, and the value that goes with the number.
#[derive(Clone, Copy, Debug, Default, Eq, PartialEq)]
#[repr(C)]
pub struct Answer {
    pub number: u32,
    pub steps: u32,
    pub value: usize,
}

/// What compile answers: both counts are 0 where the text is refused.
#[derive(Clone, Copy, Debug, Default, Eq, PartialEq)]
#[repr(C)]
pub struct Compiled {
    pub number: u32,
    pub value: usize,
    pub operator_count: usize,
    pub label_count: usize,
}

/// Where an operator stands in the text: both ends are 0 where it is refused.
#[derive(Clone, Copy, Debug, Default, Eq, PartialEq)]
#[repr(C)]
pub struct Located {
    pub answer: Answer,
    pub start: usize,
    pub end: usize,
}

/// An empty buffer: null with length 0.
impl<T> Default for Buffer<'_, T> {
    fn default() -> Self {
        Buffer { start: ptr::null(), len: 0, lent: PhantomData }
    }
}

/// An empty buffer: null with length 0.
impl Default for BufferMut<'_> {
    fn default() -> Self {
        BufferMut { start: ptr::null_mut(), len: 0, lent: PhantomData }
    }
}

impl<'a, T> From<&'a [T]> for Buffer<'a, T> {
    #[inline]
    fn from(slice: &'a [T]) -> Self {
        Buffer { start: slice.as_ptr(), len: slice.len(), lent: PhantomData }
    }
}

impl<'a> From<&'a mut [u32]> for BufferMut<'a> {
    #[inline]
    fn from(slice: &'a mut [u32]) -> Self {
        BufferMut { start: slice.as_mut_ptr(), len: slice.len(), lent: PhantomData }
    }
}

// SAFETY: it is a `&[T]`, and these are Send and Sync where T is Sync.
unsafe impl<T: Sync> Send for Buffer<'_, T> {}
unsafe impl<T: Sync> Sync for Buffer<'_, T> {}

// SAFETY: it is a `&mut [u32]`, which is both.
unsafe impl Send for BufferMut<'_> {}
unsafe impl Sync for BufferMut<'_> {}

impl<'a> BufferMut<'a> {
    /// # Safety
    ///
    /// It is lent to no call that writes: its evaluation is lent as `&Eval` alone.
    pub(crate) unsafe fn unwritten(slice: &'a [u32]) -> Self {
        BufferMut { start: slice.as_ptr().cast_mut(), len: slice.len(), lent: PhantomData }
    }
}

macro_rules! laid_out {
    ($($name:ty: $size:literal { $($($field:ident).+: $offset:literal),* })*) => {
        $(
            const _: () = assert!(size_of::<$name>() == $size);
            $(const _: () = assert!(offset_of!($name, $($field).+) == $offset);)*
        )*
    };
}

// As tests/c/layout.c has them.
laid_out! {
    State: 32 { next_operator: 0, operand_depth: 8, call_depth: 16, effect: 24, effect_operator: 28 }
    Tables: 64 {
        text.start: 0, text.len: 8, operators.start: 16, operators.len: 24, labels.start: 32, labels.len: 40,
        operator_count: 48, label_count: 56
    }
    Eval: 144 {
        state: 0, tables: 32, operand_stack.start: 96, operand_stack.len: 104, call_stack.start: 112, call_stack.len: 120,
        memory.start: 128, memory.len: 136
    }
    Answer: 16 { number: 0, steps: 4, value: 8 }
    Compiled: 32 { number: 0, value: 8, operator_count: 16, label_count: 24 }
    Located: 32 { answer: 0, start: 16, end: 24 }
}

// SAFETY: each is declared as in the header, whose structs lie as above. The `safe` ones take structs alone: every buffer in them
// is a slice's or empty, which is all that the library asks for, and it writes to what is `mut` and keeps nothing.
unsafe extern "C" {
    pub fn stack_assembly_compile(
        text: *const u8,
        text_len: usize,
        operators: *mut u32,
        operators_len: usize,
        labels: *mut u32,
        labels_len: usize,
    ) -> Compiled;
    pub fn stack_assembly_new(memory: *mut u32, memory_len: usize) -> State;
    pub safe fn stack_assembly_step(eval: &mut Eval<'_>) -> Answer;
    pub safe fn stack_assembly_run(eval: &mut Eval<'_>, budget: u32) -> Answer;
    pub safe fn stack_assembly_clear(eval: &mut Eval<'_>) -> Answer;
    pub safe fn stack_assembly_push(eval: &mut Eval<'_>, word: u32) -> Answer;
    pub safe fn stack_assembly_pop(eval: &mut Eval<'_>) -> Answer;
    pub safe fn stack_assembly_read(eval: &mut Eval<'_>, address: u32) -> Answer;
    pub safe fn stack_assembly_write(eval: &mut Eval<'_>, address: u32, word: u32) -> Answer;
    pub safe fn stack_assembly_source(tables: &Tables<'_>, index: u32) -> Located;
    pub safe fn stack_assembly_call_stack(eval: &Eval<'_>, place: usize) -> Answer;
}
