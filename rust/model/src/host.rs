//! The seven calls on one state, 25 first; and a fresh state.

use crate::engine::{Call, Engine, Lent, State};
use crate::step::step;
use crate::{beside, compile};

/// An engine that does what the definition says, and no more.
pub struct Model;

/// What a call answers, and the greatest depths of operand and call stack reached in it.
pub struct Performed {
    pub out: [u64; 8],
    pub operands_reached: usize,
    pub calls_reached: usize,
}

impl Model {
    /// Also leaves the new state in what is lent.
    pub fn perform(&self, call: Call, lent: &mut Lent) -> Performed {
        let mut reached = (lent.state.operand_depth, lent.state.call_depth);
        let answer = if is_forged(lent) { [25, 0, 0] } else { made(call, lent, &mut reached) };
        let [number, value, steps] = answer;
        let [next, operands, calls, effect, operator] = lent.state.words();
        Performed {
            out: [number, value, steps, next, operands, calls, effect, operator],
            operands_reached: reached.0,
            calls_reached: reached.1,
        }
    }
}

/// 25: a depth or a record count over capacity, or a standing effect above 11.
fn is_forged(lent: &Lent) -> bool {
    lent.state.operand_depth > lent.operand_stack.len()
        || lent.state.call_depth > lent.call_stack.len()
        || lent.operator_count > lent.operators.len() / 4
        || lent.label_count > lent.labels.len() / 3
        || lent.state.effect > 11
}

fn made(call: Call, lent: &mut Lent, reached: &mut (usize, usize)) -> [u64; 3] {
    let answer = match call {
        Call::Run { budget } => return run(budget, lent, reached),
        Call::Step => {
            let stepped = step(lent);
            [stepped.number.into(), stepped.value, stepped.steps.into()]
        }
        Call::Clear => clear(lent),
        Call::Push { word } => push(word, lent),
        Call::Pop => pop(lent),
        Call::Read { address } => match lent.memory.get(address as usize) {
            Some(&word) => [0, word.into(), 0],
            None => [31, address.into(), 0],
        },
        Call::Write { address, word } => match lent.memory.get_mut(address as usize) {
            Some(place) => {
                *place = word;
                [0, 0, 0]
            }
            None => [31, address.into(), 0],
        },
    };
    reach(lent, reached);
    answer
}

fn reach(lent: &Lent, reached: &mut (usize, usize)) {
    reached.0 = reached.0.max(lent.state.operand_depth);
    reached.1 = reached.1.max(lent.state.call_depth);
}

fn run(budget: u32, lent: &mut Lent, reached: &mut (usize, usize)) -> [u64; 3] {
    for made in 0..budget {
        let stepped = step(lent);
        reach(lent, reached);
        if stepped.number != 0 {
            return [stepped.number.into(), stepped.value, (made + stepped.steps).into()];
        }
    }
    [29, lent.state.next_operator.into(), budget.into()]
}

fn clear(lent: &mut Lent) -> [u64; 3] {
    let State { effect, effect_operator, .. } = lent.state;
    lent.state.effect = 0;
    lent.state.effect_operator = 0;
    if effect == 0 { [0, 0, 0] } else { [effect.into(), effect_operator.into(), 0] }
}

fn push(word: u32, lent: &mut Lent) -> [u64; 3] {
    match lent.push_if_room(word) {
        Ok(()) => [0, 0, 0],
        Err(_) => [27, lent.state.operand_depth as u64, 0],
    }
}

fn pop(lent: &mut Lent) -> [u64; 3] {
    match lent.pop() {
        Ok(word) => [0, word.into(), 0],
        Err(_) => [30, 0, 0],
    }
}

impl Engine for Model {
    fn compile(&self, text: &[u8], operators: &mut [u32], labels: &mut [u32]) -> [u64; 4] {
        compile::compile(text, operators, labels)
    }

    fn fresh(&self, memory: &mut [u32]) -> [u64; 5] {
        memory.fill(0);
        State::default().words()
    }

    fn call(&self, call: Call, lent: &mut Lent) -> [u64; 8] {
        let state = lent.state;
        let out = self.perform(call, lent).out;
        lent.state = state;
        out
    }

    fn source(&self, operator_count: usize, text: &[u8], operators: &[u32], index: u32) -> [u64; 5] {
        beside::source(operator_count, text, operators, index)
    }

    fn call_stack(&self, call_depth: usize, call_stack: &[u32], place: usize) -> [u64; 3] {
        beside::call_stack(call_depth, call_stack, place)
    }
}
