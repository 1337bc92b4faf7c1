//! Faults of the other host calls, and of the tests for forged states.

use super::steps::answer;
use super::{Fault, Wrong};
use model::{Call, Engine, Lent, Model, State};

fn fault(name: &'static str, wrong: fn(Call, &mut Lent) -> [u64; 8]) -> Fault {
    Fault { name, wrong: Wrong::Call(wrong) }
}

pub fn faults() -> Vec<Fault> {
    let mut faults = of_clear();
    faults.extend(of_words());
    faults.extend(of_forgeries());
    faults.push(Fault {
        name: "a fresh state leaves the last word of memory",
        wrong: Wrong::Fresh(|memory| {
            let kept = memory.len().saturating_sub(1);
            memory[..kept].fill(0);
            State::default().words()
        }),
    });
    faults
}

fn of_clear() -> Vec<Fault> {
    vec![
        fault("clear leaves the effect's operator", |call, lent| {
            let operator = lent.state.effect_operator;
            let mut out = Model.call(call, lent);
            if let (Call::Clear, 1..=11) = (call, out[0]) {
                out[7] = operator.into();
            }
            out
        }),
        fault("clear answers the operator though no effect stands", |call, lent| {
            let operator = lent.state.effect_operator;
            let mut out = Model.call(call, lent);
            if let (Call::Clear, 0) = (call, out[0]) {
                out[1] = operator.into();
            }
            out
        }),
    ]
}

fn of_words() -> Vec<Fault> {
    vec![
        fault("a push onto a full stack replaces the top", |call, lent| {
            let out = Model.call(call, lent);
            if let (Call::Push { word }, 27, Some(top)) = (call, out[0], lent.operand_stack.last_mut()) {
                *top = word;
            }
            out
        }),
        fault("a pop from an empty stack is effect 7", |call, lent| match (call, Model.call(call, lent)) {
            (Call::Pop, [30, ..]) => answer(7, 0, 0, lent.state),
            (_, out) => out,
        }),
        fault("a host's write past memory gives value 0", |call, lent| match (call, Model.call(call, lent)) {
            (Call::Write { .. }, [31, ..]) => answer(31, 0, 0, lent.state),
            (_, out) => out,
        }),
        fault("a host's write answers the word", |call, lent| match (call, Model.call(call, lent)) {
            (Call::Write { word, .. }, [0, ..]) => answer(0, word.into(), 0, lent.state),
            (_, out) => out,
        }),
        fault("a host's push is refused while an effect stands", |call, lent| match (call, lent.state.effect) {
            (Call::Push { .. }, 1..=11) => answer(33, lent.state.effect.into(), 0, lent.state),
            _ => Model.call(call, lent),
        }),
        fault("a push counts as a step", |call, lent| match (call, Model.call(call, lent)) {
            (Call::Push { .. }, [0, ..]) => answer(0, 0, 1, lent.state),
            (_, out) => out,
        }),
    ]
}

fn of_forgeries() -> Vec<Fault> {
    vec![
        fault("25 is not tested for the label count", |call, lent| {
            lent.label_count = lent.label_count.min(lent.labels.len() / 3);
            Model.call(call, lent)
        }),
        fault("25 is tested by clear for the effect alone", |call, lent| match (call, lent.state.effect) {
            (Call::Clear, 0..=11) => {
                let State { effect, effect_operator, .. } = lent.state;
                let value = if effect == 0 { 0 } else { effect_operator.into() };
                answer(effect.into(), value, 0, State { effect: 0, effect_operator: 0, ..lent.state })
            }
            _ => Model.call(call, lent),
        }),
        fault("25 counts effect 12 as one", |call, lent| match (call, lent.state.effect) {
            (Call::Step, 12) => answer(12, lent.state.effect_operator.into(), 1, lent.state),
            _ => Model.call(call, lent),
        }),
        fault("25 looks at 32 bits of a depth", |call, lent| {
            lent.state.operand_depth &= 0xFFFF_FFFF;
            Model.call(call, lent)
        }),
        fault("26 gives an operator's byte offset", |call, lent| {
            let mut out = Model.call(call, lent);
            if out[0] == 26 {
                out[1] *= 4;
            }
            out
        }),
        fault("kind 3 is a reference", |call, lent| {
            let operators: Vec<u32> = lent.operators.to_vec().chunks(4).flat_map(as_reference).collect();
            with_operators(call, lent, &operators)
        }),
    ]
}

fn as_reference(record: &[u32]) -> Vec<u32> {
    match record {
        [3, rest @ ..] => [&[2], rest].concat(),
        sound => sound.to_vec(),
    }
}

fn with_operators(call: Call, lent: &mut Lent, operators: &[u32]) -> [u64; 8] {
    let Lent { state, operator_count, label_count, text, labels, .. } = *lent;
    let (operand_stack, call_stack, memory) = (&mut *lent.operand_stack, &mut *lent.call_stack, &mut *lent.memory);
    Model.call(call, &mut Lent { state, operator_count, label_count, text, operators, labels, operand_stack, call_stack, memory })
}
