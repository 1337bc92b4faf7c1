//! Faults of a step and of run, misreadings of the definition and worthless engines among them.

use super::{Fault, Wrong};
use model::{Call, Engine, Lent, Model, State};

/// What a step found.
pub struct Before<'a> {
    pub state: State,
    /// The text of the operator, where its record is sound.
    pub word: &'a [u8],
    /// The three topmost operands, the top first; 0 where there are fewer.
    pub top: [u32; 3],
}

pub type Mend = fn(&Before, &mut Lent, &mut [u64; 8]);

impl<'a> Before<'a> {
    fn of(lent: &Lent<'a>) -> Before<'a> {
        let state = lent.state;
        let at = state.next_operator as usize;
        let record = if at < lent.operator_count { lent.operators.get(4 * at..4 * at + 4) } else { None };
        let word = record.and_then(|record| lent.text.get(record[1] as usize..record[2] as usize));
        let operand = |place: usize| state.operand_depth.checked_sub(place + 1).and_then(|at| lent.operand_stack.get(at));
        let top = [0, 1, 2].map(|place| operand(place).copied().unwrap_or(0));
        Before { state, word: word.unwrap_or_default(), top }
    }
}

/// Step, and run as a repetition of it.
pub fn stepwise(call: Call, lent: &mut Lent, mend: Mend) -> [u64; 8] {
    let budget = match call {
        Call::Step => 1,
        Call::Run { budget } if budget > 0 => budget,
        other => return Model.call(other, lent),
    };
    let mut made = 0;
    while made < budget {
        let before = Before::of(lent);
        let mut out = Model.call(Call::Step, lent);
        mend(&before, lent, &mut out);
        lent.state = State::answered(&out);
        if out[0] != 0 || call == Call::Step {
            out[2] += u64::from(made);
            return out;
        }
        made += 1;
    }
    answer(29, lent.state.next_operator.into(), budget.into(), lent.state)
}

pub fn answer(number: u64, value: u64, steps: u64, state: State) -> [u64; 8] {
    let [next, operands, calls, effect, operator] = state.words();
    [number, value, steps, next, operands, calls, effect, operator]
}

pub fn step_fault(name: &'static str, mend: Mend) -> Fault {
    Fault { name, wrong: Wrong::Step(mend) }
}

pub fn fault(name: &'static str, wrong: fn(Call, &mut Lent) -> [u64; 8]) -> Fault {
    Fault { name, wrong: Wrong::Call(wrong) }
}

pub fn faults() -> Vec<Fault> {
    let mut faults = of_labels();
    faults.extend(mistakes());
    faults.extend(of_effects());
    faults.extend(worthless());
    faults.extend(of_run());
    faults
}

/// An effect arose in this step.
pub fn raised(before: &Before, out: &[u64; 8], effect: u64) -> bool {
    before.state.effect == 0 && out[0] == effect
}

fn of_labels() -> Vec<Fault> {
    vec![
        fault("the last label wins", |call, lent| {
            let (records, rest) = lent.labels.split_at((3 * lent.label_count.min(1 << 20)).min(lent.labels.len()));
            let reversed: Vec<u32> = records.chunks(3).rev().chain([rest]).flatten().copied().collect();
            with_labels(call, lent, &reversed)
        }),
        fault("a label past the match is examined", |call, lent| match Model.call(call, lent) {
            out if out[0] < 25 && out[2] > 0 && lent.labels.len() > 2 && lent.label_count > 0 => {
                let last = 3 * lent.label_count - 3;
                let is_sound = lent.labels[last] <= lent.labels[last + 1];
                if is_sound { out } else { answer(26, lent.label_count as u64 - 1, out[2], lent.state) }
            }
            out => out,
        }),
    ]
}

fn mistakes() -> Vec<Fault> {
    vec![
        step_fault("operands are restored when a later pop fails", |before, _, out| {
            if raised(before, out, 7) {
                out[4] = before.state.operand_depth as u64;
            }
        }),
        step_fault("`call` pops before it pushes", |before, _, out| {
            if raised(before, out, 7) {
                out[5] = before.state.call_depth as u64;
            }
        }),
        step_fault("next is left alone while an effect stands", |before, _, out| {
            if before.state.effect != 0 {
                out[3] = before.state.next_operator.into();
            }
        }),
        step_fault("27 is tested before effect 6", |before, lent, out| {
            if raised(before, out, 6) && before.state.operand_depth == lent.operand_stack.len() {
                *out = answer(27, before.state.operand_depth as u64, 0, before.state);
            }
        }),
        step_fault("28 is tested after the pops", |before, _, out| {
            if out[0] == 28 && before.state.operand_depth == 0 {
                let [next, _, calls, ..] = before.state.words();
                *out = [7, next, 1, next + 1, 0, calls, 7, next];
            }
        }),
        step_fault("a refused step advances", |before, _, out| {
            if out[0] == 26 || out[0] == 27 {
                out[3] = before.state.next_operator.wrapping_add(1).into();
            }
        }),
        step_fault("the word above the greatest depth is overwritten", |before, lent, out| {
            let reached = before.state.operand_depth.max(out[4] as usize);
            if let (1, Some(word)) = (out[2], lent.operand_stack.get_mut(reached)) {
                *word = 0;
            }
        }),
    ]
}

fn with_labels(call: Call, lent: &mut Lent, labels: &[u32]) -> [u64; 8] {
    let Lent { state, operator_count, label_count, text, operators, .. } = *lent;
    let (operand_stack, call_stack, memory) = (&mut *lent.operand_stack, &mut *lent.call_stack, &mut *lent.memory);
    let mut other = Lent { state, operator_count, label_count, text, operators, labels, operand_stack, call_stack, memory };
    Model.call(call, &mut other)
}

fn of_effects() -> Vec<Fault> {
    vec![
        step_fault("an effect's operator is the one after it", |before, _, out| {
            if before.state.effect == 0 && (1..=11).contains(&out[0]) {
                (out[1], out[7]) = (out[3], out[3]);
            }
        }),
        step_fault("next does not wrap", |before, _, out| {
            if before.state.next_operator == u32::MAX && out[2] == 1 {
                out[3] = u32::MAX.into();
            }
        }),
        step_fault("past the last operator is effect 9", |before, _, out| {
            if raised(before, out, 8) {
                (out[0], out[6]) = (9, 9);
            }
        }),
        step_fault("an unknown identifier is effect 6", |before, _, out| {
            if raised(before, out, 10) {
                (out[0], out[6]) = (6, 6);
            }
        }),
        step_fault("a reference without a label pushes the operator count", |before, lent, out| {
            if raised(before, out, 6) && before.state.operand_depth < lent.operand_stack.len() {
                lent.operand_stack[before.state.operand_depth] = lent.operator_count as u32;
                *out = [0, 0, 1, out[3], out[4] + 1, out[5], 0, out[7]];
            }
        }),
        step_fault("a step that finds an effect standing counts 0", |before, _, out| {
            if before.state.effect != 0 && out[2] == 1 {
                out[2] = 0;
            }
        }),
    ]
}

fn worthless() -> Vec<Fault> {
    vec![
        fault("29 before working", |call, lent| match call {
            Call::Run { .. } => answer(29, lent.state.next_operator.into(), 0, lent.state),
            other => Model.call(other, lent),
        }),
        fault("one step, then only next moves", |call, lent| match call {
            Call::Run { budget: 2.. } => {
                let mut out = Model.call(Call::Step, lent);
                out[3] += 1;
                out
            }
            other => Model.call(other, lent),
        }),
        fault("a step count of its choosing", |call, lent| {
            let mut out = Model.call(call, lent);
            if let Call::Run { .. } = call {
                out[2] = out[2].min(7);
            }
            out
        }),
        fault("every run ends with effect 8", |call, lent| {
            let mut out = Model.call(call, lent);
            if let (Call::Run { .. }, 1..=11) = (call, out[0]) {
                (out[0], out[6]) = (8, 8);
            }
            out
        }),
        fault("nothing is ever changed", |_, lent| answer(0, 0, 0, lent.state)),
    ]
}

fn of_run() -> Vec<Fault> {
    vec![
        fault("budget 0 answers a standing effect", |call, lent| match (call, lent.state.effect) {
            (Call::Run { budget: 0 }, 1..=11) => answer(lent.state.effect.into(), lent.state.effect_operator.into(), 0, lent.state),
            _ => Model.call(call, lent),
        }),
        fault("29 gives the steps", |call, lent| match Model.call(call, lent) {
            [29, _, steps, rest @ ..] => {
                let [next, operands, calls, effect, operator] = rest;
                [29, steps, steps, next, operands, calls, effect, operator]
            }
            out => out,
        }),
        fault("run makes one step more than its budget", |call, lent| match call {
            Call::Run { budget: budget @ 1.. } => Model.call(Call::Run { budget: budget + 1 }, lent),
            other => Model.call(other, lent),
        }),
        fault("a run that a refusal ends counts the refused step", |call, lent| {
            let mut out = Model.call(call, lent);
            if let (Call::Run { .. }, 26..=28) = (call, out[0]) {
                out[2] += 1;
            }
            out
        }),
    ]
}
