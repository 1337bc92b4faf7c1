//! What stands above the depths is zero in stacks that were zeroed, and buffers that are handed on have nothing in them.

use stack_assembly::boundary::{self, Answer, Lent, State, Tables};
use stack_assembly::{Buffers, Eval, Script, Sizes};

/// Scripts that pop, drop and return, and end in effects and refusals.
const SCRIPTS: [&str; 11] = [
    "7 8 6 1 drop yield + +",
    "9 3 / 5 0 / 4",
    "@f call @f call yield f: 5 6 + return",
    "1 @a @b call_either yield a: 0 @a @b call_either b: return",
    "5 call_either",
    "1 2 3 4 5 6 7",
    "f: 3 @f call",
    "loop: 1 1 + 0 drop @loop jump",
    "1 7 write 1 read 99 read",
    "6 3 0 assert",
    "8 9 5 copy",
];
const SIZES: Sizes = Sizes { operand_stack: 5, call_stack: 2, memory: 3 };

/// Every list of the calls that begins at one of them, and goes round twice.
fn lists<T: Copy>(calls: &[T]) -> impl Iterator<Item = Vec<T>> {
    (0..calls.len()).map(|first| calls.iter().copied().cycle().skip(first).take(2 * calls.len()).collect())
}

type LentCall = fn(&mut Lent) -> Answer;

const LENT_CALLS: [LentCall; 11] = [
    |lent| boundary::run(lent, 3),
    |lent| boundary::step(lent),
    |lent| boundary::clear(lent),
    |lent| boundary::push(lent, 7),
    |lent| boundary::pop(lent),
    |lent| boundary::run(lent, 40),
    |lent| boundary::pop(lent),
    |lent| boundary::write(lent, 1, 8),
    |lent| boundary::clear(lent),
    |lent| boundary::read(lent, 1),
    |lent| boundary::run(lent, 9),
];

/// Plays a list in stacks with this word everywhere, and gives the state and both stacks after each call.
fn played(text: &str, list: &[LentCall], word: u32) -> Vec<(State, [u32; 5], [u32; 2])> {
    let (mut operators, mut labels) = ([0; 64], [0; 9]);
    let compiled = boundary::compile(text.as_bytes(), &mut operators, &mut labels);
    let tables = Tables {
        text: text.as_bytes().into(),
        operators: operators.as_slice().into(),
        labels: labels.as_slice().into(),
        operator_count: compiled.operator_count,
        label_count: compiled.label_count,
    };
    let (mut operands, mut calls, mut memory) = ([word; 5], [word; 2], [0; 3]);
    let mut state = State::default();
    let mut made = |call: &LentCall| {
        let mut lent = Lent {
            state,
            tables,
            operand_stack: operands.as_mut_slice().into(),
            call_stack: calls.as_mut_slice().into(),
            memory: memory.as_mut_slice().into(),
        };
        call(&mut lent);
        state = lent.state;
        (state, operands, calls)
    };
    list.iter().map(&mut made).collect()
}

#[test]
fn every_word_above_a_depth_is_zero() {
    for text in SCRIPTS {
        for list in lists(&LENT_CALLS) {
            for (state, operands, calls) in played(text, &list, 0) {
                assert!(operands[state.operand_depth..].iter().all(|&word| word == 0), "{text}: {operands:?}, {state:?}");
                assert!(calls[state.call_depth..].iter().all(|&word| word == 0), "{text}: {calls:?}, {state:?}");
            }
        }
    }
}

#[test]
fn a_word_that_no_call_reaches_stays() {
    let last = |text, list: &[LentCall]| played(text, list, 9).pop().map(|(_, operands, calls)| (operands, calls));
    let run: [LentCall; 1] = [|lent| boundary::run(lent, 40)];
    assert_eq!(last("1 +", &run), Some(([0, 9, 9, 9, 9], [9, 9])));
    assert_eq!(last("7 8 1 drop", &run), Some(([8, 0, 0, 9, 9], [9, 9])));
    assert_eq!(last("@a call yield a: return", &run), Some(([0, 9, 9, 9, 9], [0, 9])));
    let push_and_pop: [LentCall; 2] = [|lent| boundary::push(lent, 7), |lent| boundary::pop(lent)];
    assert_eq!(last("", &push_and_pop), Some(([0, 9, 9, 9, 9], [9, 9])));
    let others: [LentCall; 3] = [|lent| boundary::write(lent, 1, 8), |lent| boundary::read(lent, 1), |lent| boundary::clear(lent)];
    assert_eq!(last("", &others), Some(([9; 5], [9; 2])));
}

type EvalCall = fn(&mut Eval, &Script) -> String;

const EVAL_CALLS: [EvalCall; 11] = [
    |eval, script| format!("{:?}", eval.run(script, 3)),
    |eval, script| format!("{:?}", eval.step(script)),
    |eval, _| format!("{:?}", eval.clear_effect()),
    |eval, _| format!("{:?}", eval.push(7)),
    |eval, _| format!("{:?}", eval.pop()),
    |eval, script| format!("{:?}", eval.run(script, 40)),
    |eval, _| format!("{:?}", eval.pop()),
    |eval, _| format!("{:?}", eval.write(1, 8)),
    |eval, _| format!("{:?}", eval.clear_effect()),
    |eval, _| format!("{:?}", eval.read(1)),
    |eval, script| format!("{:?}", eval.run(script, 9)),
];

#[test]
fn nothing_is_left_in_buffers_that_are_handed_on() {
    for text in SCRIPTS {
        let script = Script::compile(text).unwrap();
        for list in lists(&EVAL_CALLS) {
            let mut eval = Eval::with_sizes(SIZES);
            for call in list {
                call(&mut eval, &script);
                assert_eq!(eval.clone().into_buffers(), Buffers::with_sizes(SIZES), "{text}: {eval:?}");
            }
        }
    }
}

#[test]
fn an_evaluation_in_buffers_that_are_handed_on_is_as_a_new_one() {
    let mut buffers = Buffers::with_sizes(SIZES);
    for text in SCRIPTS {
        let script = Script::compile(text).unwrap();
        for list in lists(&EVAL_CALLS) {
            let (mut new, mut later) = (Eval::with_sizes(SIZES), Eval::with_buffers(buffers));
            for call in list {
                assert_eq!(call(&mut later, &script), call(&mut new, &script), "{text}");
                assert_eq!(format!("{later:?}"), format!("{new:?}"), "{text}");
            }
            buffers = later.into_buffers();
        }
    }
    assert_eq!(buffers.sizes(), SIZES);
}
