//! Faults of what is left above the depths: a released word that is no zero, and a word that no call reached.

use super::Fault;
use super::steps::{fault, raised, step_fault};
use super::words::made;
use model::{Call, Engine, Lent, Model};
use std::ops::RangeInclusive;

pub fn faults() -> Vec<Fault> {
    let mut faults = of_steps();
    faults.extend(of_calls());
    faults
}

fn of_steps() -> Vec<Fault> {
    vec![
        step_fault("`drop` leaves a word in the place that it vacates", |before, lent, out| {
            if made(before, out, "drop") {
                lent.operand_stack[out[4] as usize] = before.top[1];
            }
        }),
        step_fault("a second pop that fails leaves the word of the first", |before, lent, out| {
            if raised(before, out, 7) && before.state.operand_depth == 1 {
                lent.operand_stack[0] = before.top[0];
            }
        }),
        step_fault("a division by zero leaves its operands", |before, lent, out| {
            if raised(before, out, 2) {
                let depth = before.state.operand_depth;
                lent.operand_stack[depth - 2..depth].copy_from_slice(&[before.top[1], before.top[0]]);
            }
        }),
        step_fault("`call_either` leaves the condition", |before, lent, out| {
            if made(before, out, "call_either") {
                lent.operand_stack[out[4] as usize] = before.top[2];
            }
        }),
        step_fault("`return` leaves its entry", |before, lent, out| {
            if made(before, out, "return") {
                lent.call_stack[out[5] as usize] = out[3] as u32;
            }
        }),
    ]
}

fn of_calls() -> Vec<Fault> {
    vec![
        fault("a host's pop leaves the word", |call, lent| {
            let out = Model.call(call, lent);
            if let (Call::Pop, 0) = (call, out[0]) {
                lent.operand_stack[out[4] as usize] = out[1] as u32;
            }
            out
        }),
        fault("a run that a refusal ends leaves the words above the depths as they were", |call, lent| {
            unreleased(call, lent, 26..=28)
        }),
        fault("a run that its budget ends leaves the words above the depths as they were", |call, lent| {
            unreleased(call, lent, 29..=29)
        }),
        fault("every operand word above the depth becomes zero", |call, lent| {
            let out = Model.call(call, lent);
            zeroed(lent.operand_stack, out[4]);
            out
        }),
        fault("every call word above the depth becomes zero", |call, lent| {
            let out = Model.call(call, lent);
            zeroed(lent.call_stack, out[5]);
            out
        }),
    ]
}

/// The model, but what stands above the depths after a run with one of these numbers is what stood there before it.
fn unreleased(call: Call, lent: &mut Lent, numbers: RangeInclusive<u64>) -> [u64; 8] {
    let (operands, calls) = (lent.operand_stack.to_vec(), lent.call_stack.to_vec());
    let out = Model.call(call, lent);
    if matches!(call, Call::Run { .. }) && numbers.contains(&out[0]) {
        let (operand_depth, call_depth) = (out[4] as usize, out[5] as usize);
        lent.operand_stack[operand_depth..].copy_from_slice(&operands[operand_depth..]);
        lent.call_stack[call_depth..].copy_from_slice(&calls[call_depth..]);
    }
    out
}

fn zeroed(stack: &mut [u32], depth: u64) {
    if let Some(above) = stack.get_mut(depth as usize..) {
        above.fill(0);
    }
}
