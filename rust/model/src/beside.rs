//! Beside the run: the source of an operator, and the call stack by place.

use crate::step::is_damaged_operator;

pub fn source(operator_count: usize, text: &[u8], operators: &[u32], index: u32) -> [u64; 5] {
    if operator_count > operators.len() / 4 {
        return [25, 0, 0, 0, 0];
    }
    let place = index as usize;
    if place >= operator_count {
        return [31, index.into(), 0, 0, 0];
    }
    let record = &operators[4 * place..4 * place + 4];
    if is_damaged_operator(record, text) {
        return [26, index.into(), 0, 0, 0];
    }
    [0, 0, 0, record[1].into(), record[2].into()]
}

pub fn call_stack(call_depth: usize, call_stack: &[u32], place: usize) -> [u64; 3] {
    if call_depth > call_stack.len() {
        return [25, 0, 0];
    }
    if place >= call_depth {
        return [31, place as u64, 0];
    }
    match call_stack[call_depth - 1 - place] {
        0 => [25, 0, 0],
        entry => [0, u64::from(entry) - 1, 0],
    }
}
