//! Cases that are lists of a host's calls: with sizes and budgets around what the list needs, and with forged states.

use crate::case::{Action, Case, Place, Sizes};
use crate::random::Random;
use crate::scripts;
use crate::world::World;
use model::{Call, Engine, Model, State};

/// Host calls in any order on a script, with sizes around what they need.
pub fn list(random: &mut Random, _: u64) -> Case {
    let actions = (0..1 + random.below(16)).map(|_| Action::Call(call(random))).collect();
    let mut case = Case::new(text(random), actions);
    case.fill = random.word() as u32;
    case.sizes.memory = random.below(20);
    tighten(&mut case, random);
    case
}

fn text(random: &mut Random) -> String {
    if random.one_in(3) { scripts::loop_text(random) } else { scripts::script(random) }
}

fn call(random: &mut Random) -> Call {
    match random.below(14) {
        0 | 1 => Call::Step,
        2..=5 => Call::Run { budget: random.of(&[0, 1, 2, 3, 5, 10, 50, 400]) },
        6 | 7 => Call::Clear,
        8 | 9 => Call::Push { word: random.u32() },
        10 => Call::Pop,
        11 => Call::Read { address: random.u32() },
        _ => Call::Write { address: random.below(20) as u32, word: random.u32() },
    }
}

/// Sizes at, just under and just over what the list reaches with ample ones.
fn tighten(case: &mut Case, random: &mut Random) {
    let reached = reached(case);
    case.sizes.operand_stack = around(reached.operand_stack, 1, random);
    case.sizes.call_stack = around(reached.call_stack, 1, random);
    case.sizes.operators = 4 * reached.operators + random.below(5);
    case.sizes.labels = 3 * reached.labels + random.below(4);
    if random.one_in(16) {
        case.sizes.operators = around(reached.operators, 4, random);
        case.sizes.labels = around(reached.labels, 3, random);
    }
}

fn around(needed: usize, width: usize, random: &mut Random) -> usize {
    match random.below(5) {
        0 => width * (needed + 8),
        1 => width * random.below(needed + 1),
        2 => (width * needed).saturating_sub(1),
        3 => width * needed + random.below(width + 1),
        _ => width * needed,
    }
}

/// The records and the depths that a list needs, by the model.
fn reached(case: &Case) -> Sizes {
    let mut world = World::new(case);
    let (text, operators, labels) = world.tables();
    let out = Model.compile(text, operators, labels);
    (world.operator_count, world.label_count) = (out[2] as usize, out[3] as usize);
    let mut sizes =
        Sizes { operators: world.operator_count, labels: world.label_count, operand_stack: 0, call_stack: 0, memory: 0 };
    for action in &case.actions {
        if let Action::Call(call) = *action {
            let performed = Model.perform(call, &mut world.lent());
            world.state = State::answered(&performed.out);
            sizes.operand_stack = sizes.operand_stack.max(performed.operands_reached);
            sizes.call_stack = sizes.call_stack.max(performed.calls_reached);
        }
    }
    sizes
}

/// A list in which the host also changes state, counts, tables, stacks, memory or text between the calls.
pub fn forged(random: &mut Random, number: u64) -> Case {
    let mut case = list(random, number);
    for _ in 0..1 + random.below(5) {
        let at = random.below(case.actions.len() + 1);
        let (place, value) = forgery(&case, random);
        case.actions.insert(at, Action::Forge(place, value));
    }
    case
}

fn forgery(case: &Case, random: &mut Random) -> (Place, u64) {
    let Sizes { operators, labels, operand_stack, call_stack, memory } = case.sizes;
    let word = random.u32() as u64;
    let around = |size: usize, random: &mut Random| match random.below(8) {
        0 => u64::MAX - random.below(3) as u64,
        1 => (size + 1) as u64,
        2 => (size as u64) + (1 << 32),
        _ => random.below(size + 1) as u64,
    };
    let length = case.text.len();
    match random.below(20) {
        0 | 1 => (Place::NextOperator, word),
        2 | 3 => (Place::OperandDepth, around(operand_stack, random)),
        4 | 5 => (Place::CallDepth, around(call_stack, random)),
        6 | 7 => (Place::Effect, random.below(13) as u64),
        8 => (Place::EffectOperator, word),
        9 => (Place::OperatorCount, around(operators / 4, random)),
        10 => (Place::LabelCount, around(labels / 3, random)),
        11 => (Place::TextLength, around(length, random)),
        12 => (Place::TextByte(random.below(length + 1)), word & 0xFF),
        13 | 14 => record_word(Place::Operators, operators, [3, length, length, 12], random),
        15 | 16 => record_word(Place::Labels, labels, [length, length, 12, 1], random),
        17 => (Place::OperandStack(random.below(operand_stack + 1)), word),
        18 => (Place::CallStack(random.below(call_stack + 1)), word),
        _ => (Place::Memory(random.below(memory + 1)), word),
    }
}

/// A word of a table, set to something that often leaves the record sound: each place in a record has its own range.
fn record_word(place: fn(usize) -> Place, size: usize, ranges: [usize; 4], random: &mut Random) -> (Place, u64) {
    let at = random.below(size + 1);
    let width = if matches!(place(0), Place::Operators(_)) { 4 } else { 3 };
    let value = if random.one_in(3) { random.u32() as u64 } else { random.below(ranges[at % width] + 1) as u64 };
    (place(at), value)
}
