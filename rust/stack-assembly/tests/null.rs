//! At the C boundary null with length 0 is an empty buffer.

use stack_assembly::ffi::{self, Answer, Compiled, Eval, Located, State};
use std::ptr::{null, null_mut};

#[test]
fn null_is_an_empty_buffer() {
    // SAFETY: every length is 0.
    let (compiled, state) = unsafe {
        let compiled = ffi::stack_assembly_compile(null(), 0, null_mut(), 0, null_mut(), 0);
        (compiled, ffi::stack_assembly_new(null_mut(), 0))
    };
    assert_eq!((compiled, state), (Compiled::default(), State::default()));

    let mut eval = Eval::default();
    assert_eq!(ffi::stack_assembly_run(&mut eval, 5), Answer { number: 8, steps: 1, value: 0 });
    assert_eq!(eval.state, State { next_operator: 1, effect: 8, ..state });

    let absent = Answer { number: 31, ..Answer::default() };
    assert_eq!(ffi::stack_assembly_source(&eval.tables, 0), Located { answer: absent, ..Located::default() });
    assert_eq!(ffi::stack_assembly_call_stack(&eval, 0), absent);
}
