//! One step: the next operator is fetched, next is advanced, the operator is evaluated.

use crate::engine::{Lent, State};
use crate::machine::{INVALID_REFERENCE, OUT_OF_OPERATORS, Stop};
use crate::operators::evaluate;

/// What a step answers.
pub struct Stepped {
    pub number: u32,
    pub value: u64,
    pub steps: u32,
}

pub fn step(lent: &mut Lent) -> Stepped {
    let before = lent.state;
    let current = before.next_operator;
    lent.state.next_operator = if current == u32::MAX { 0 } else { current + 1 };
    if before.effect != 0 {
        return Stepped { number: before.effect, value: before.effect_operator.into(), steps: 1 };
    }
    match operator(current, lent) {
        Ok(()) => Stepped { number: 0, value: 0, steps: 1 },
        Err(Stop::Effect(effect)) => {
            lent.state = State { effect, effect_operator: current, ..lent.state };
            Stepped { number: effect, value: current.into(), steps: 1 }
        }
        Err(Stop::Refusal { number, value }) => {
            lent.state = before;
            Stepped { number, value, steps: 0 }
        }
    }
}

fn operator(current: u32, lent: &mut Lent) -> Result<(), Stop> {
    let place = current as usize;
    if place >= lent.operator_count {
        return Err(OUT_OF_OPERATORS);
    }
    let record = &lent.operators[4 * place..4 * place + 4];
    if is_damaged_operator(record, lent.text) {
        return Err(Stop::Refusal { number: 26, value: current.into() });
    }
    let text = lent.text;
    let range = record[1] as usize..record[2] as usize;
    match record[0] {
        0 => evaluate(&text[range], lent),
        1 => lent.push_if_room(record[3]),
        _ => {
            let index = resolved(&text[range.start + 1..range.end], lent)?;
            lent.push_if_room(index)
        }
    }
}

/// The index that the first label with this name has. Labels are examined in order up to the match.
fn resolved(name: &[u8], lent: &Lent) -> Result<u32, Stop> {
    for (place, record) in lent.labels.chunks_exact(3).take(lent.label_count).enumerate() {
        let (start, end) = (record[0] as usize, record[1] as usize);
        if start > end || end > lent.text.len() {
            return Err(Stop::Refusal { number: 26, value: place as u64 });
        }
        if lent.text[start..end] == *name {
            return Ok(record[2]);
        }
    }
    Err(INVALID_REFERENCE)
}

pub fn is_damaged_operator(record: &[u32], text: &[u8]) -> bool {
    record[0] > 2 || record[1] >= record[2] || record[2] as usize > text.len()
}
