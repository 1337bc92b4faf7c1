//! What operators work on: the lent buffers, with the state beside them.

use crate::engine::Lent;

/// Why evaluating an operator did not simply go on.
#[derive(Debug, Eq, PartialEq)]
pub enum Stop {
    Effect(u32),
    Refusal { number: u32, value: u64 },
}

pub const ASSERTION_FAILED: Stop = Stop::Effect(1);
pub const DIVISION_BY_ZERO: Stop = Stop::Effect(2);
pub const INTEGER_OVERFLOW: Stop = Stop::Effect(3);
pub const INVALID_ADDRESS: Stop = Stop::Effect(4);
pub const INVALID_OPERAND_STACK_INDEX: Stop = Stop::Effect(5);
pub const INVALID_REFERENCE: Stop = Stop::Effect(6);
pub const OPERAND_STACK_UNDERFLOW: Stop = Stop::Effect(7);
pub const OUT_OF_OPERATORS: Stop = Stop::Effect(8);
pub const RETURN: Stop = Stop::Effect(9);
pub const UNKNOWN_IDENTIFIER: Stop = Stop::Effect(10);
pub const YIELD: Stop = Stop::Effect(11);

/// A word that is released from a stack becomes zero.
fn released(place: &mut u32) -> u32 {
    std::mem::take(place)
}

impl Lent<'_> {
    pub(crate) fn pop(&mut self) -> Result<u32, Stop> {
        if self.state.operand_depth == 0 {
            return Err(OPERAND_STACK_UNDERFLOW);
        }
        self.state.operand_depth -= 1;
        Ok(released(&mut self.operand_stack[self.state.operand_depth]))
    }

    pub(crate) fn push(&mut self, word: u32) {
        self.operand_stack[self.state.operand_depth] = word;
        self.state.operand_depth += 1;
    }

    /// 27: a word is to be pushed and the operand stack is full.
    pub(crate) fn push_if_room(&mut self, word: u32) -> Result<(), Stop> {
        if self.state.operand_depth == self.operand_stack.len() {
            return Err(Stop::Refusal { number: 27, value: self.state.operand_depth as u64 });
        }
        self.push(word);
        Ok(())
    }

    /// 28: a call meets a full call stack; else it pushes next.
    pub(crate) fn enter(&mut self) -> Result<(), Stop> {
        if self.state.call_depth == self.call_stack.len() {
            return Err(Stop::Refusal { number: 28, value: self.state.call_depth as u64 });
        }
        self.call_stack[self.state.call_depth] = self.state.next_operator;
        self.state.call_depth += 1;
        Ok(())
    }

    pub(crate) fn leave(&mut self) -> Result<(), Stop> {
        if self.state.call_depth == 0 {
            return Err(RETURN);
        }
        self.state.call_depth -= 1;
        self.state.next_operator = released(&mut self.call_stack[self.state.call_depth]);
        Ok(())
    }

    /// The words above a place move down by one, and the place that becomes free at the top is released.
    pub(crate) fn close_gap(&mut self, place: usize) -> Result<(), Stop> {
        self.operand_stack.copy_within(place + 1..self.state.operand_depth, place);
        self.pop().map(|_| ())
    }

    /// Where the operand with this index from the top stands, 0 being the top.
    pub(crate) fn operand_at(&self, index: u32) -> Result<usize, Stop> {
        let depth = self.state.operand_depth;
        if index as usize >= depth {
            return Err(INVALID_OPERAND_STACK_INDEX);
        }
        Ok(depth - 1 - index as usize)
    }
}
