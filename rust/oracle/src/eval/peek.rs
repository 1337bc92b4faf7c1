//! What an evaluation keeps private, read and set.

use super::*;

pub fn next(eval: &Eval) -> u32 {
    eval.next_operator.value
}

pub fn effect(eval: &Eval) -> Option<(Effect, u32)> {
    eval.effect.map(|(effect, operator)| (effect, operator.value))
}

/// The entries as they stand on the call stack, the top last.
pub fn calls(eval: &Eval) -> impl ExactSizeIterator<Item = u32> {
    eval.call_stack.iter().map(|entry| entry.value)
}

pub fn call_depth(eval: &Eval) -> usize {
    eval.call_stack.len()
}

/// An evaluation in any state.
pub fn made(next: u32, operands: &[u32], calls: &[u32], effect: Option<(Effect, u32)>, memory: &[u32]) -> Eval {
    let index = |value| OperatorIndex { value };
    Eval {
        next_operator: index(next),
        call_stack: calls.iter().copied().map(index).collect(),
        effect: effect.map(|(effect, operator)| (effect, index(operator))),
        operand_stack: OperandStack { values: operands.iter().map(|&word| word.into()).collect() },
        memory: Memory { values: memory.iter().map(|&word| word.into()).collect() },
    }
}

pub fn copy(eval: &Eval) -> Eval {
    let calls: Vec<u32> = calls(eval).collect();
    made(next(eval), eval.operand_stack.to_u32_slice(), &calls, effect(eval), eval.memory.to_u32_slice())
}

/// Back to the start with the same memory, and with the room that the stacks have.
pub fn rewind(eval: &mut Eval) {
    eval.next_operator = OperatorIndex::default();
    eval.call_stack.clear();
    eval.effect = None;
    eval.operand_stack.values.clear();
}
