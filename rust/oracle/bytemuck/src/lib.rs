//! Stands in for the crate bytemuck: the two traits, their derives, and `cast_slice` between types of one size.

pub use bytemuck_derive::{Pod, Zeroable};

/// # Safety
/// A value of zero bytes is one of the type's.
pub unsafe trait Zeroable: Sized {}

/// # Safety
/// Any bytes are a value of the type, and it has no padding.
pub unsafe trait Pod: Zeroable + Copy + 'static {}

unsafe impl Zeroable for u32 {}
unsafe impl Pod for u32 {}
unsafe impl Zeroable for i32 {}
unsafe impl Pod for i32 {}

/// The same words, read as another type of the same size and alignment.
pub fn cast_slice<A: Pod, B: Pod>(words: &[A]) -> &[B] {
    assert!(size_of::<A>() == size_of::<B>() && align_of::<A>() == align_of::<B>());
    // SAFETY: size and alignment are equal, and any bytes are a value of a `Pod` type.
    unsafe { std::slice::from_raw_parts(words.as_ptr().cast(), words.len()) }
}
