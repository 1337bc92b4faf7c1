//! The engine that is linked: the proved library, through its C boundary.

use model::{Call, Engine, Lent};
use stack_assembly::boundary::{self, Answer};

pub struct Library;

impl Engine for Library {
    fn compile(&self, text: &[u8], operators: &mut [u32], labels: &mut [u32]) -> [u64; 4] {
        let compiled = boundary::compile(text, operators, labels);
        let [value, operators, labels] = [compiled.value, compiled.operator_count, compiled.label_count].map(|size| size as u64);
        [compiled.number.into(), value, operators, labels]
    }

    fn fresh(&self, memory: &mut [u32]) -> [u64; 5] {
        state(boundary::new(memory)).words()
    }

    fn call(&self, call: Call, lent: &mut Lent) -> [u64; 8] {
        let mut lent = relent(lent);
        let answer = match call {
            Call::Step => boundary::step(&mut lent),
            Call::Run { budget } => boundary::run(&mut lent, budget),
            Call::Clear => boundary::clear(&mut lent),
            Call::Push { word } => boundary::push(&mut lent, word),
            Call::Pop => boundary::pop(&mut lent),
            Call::Read { address } => boundary::read(&mut lent, address),
            Call::Write { address, word } => boundary::write(&mut lent, address, word),
        };
        let [number, value, steps] = words(answer);
        let [next, operands, calls, effect, operator] = state(lent.state).words();
        [number, value, steps, next, operands, calls, effect, operator]
    }

    fn source(&self, operator_count: usize, text: &[u8], operators: &[u32], index: u32) -> [u64; 5] {
        let (text, operators) = (text.into(), operators.into());
        let located = boundary::source(&boundary::Tables { text, operators, operator_count, ..Default::default() }, index);
        let [number, value, steps] = words(located.answer);
        [number, value, steps, located.start as u64, located.end as u64]
    }

    fn call_stack(&self, call_depth: usize, call_stack: &[u32], place: usize) -> [u64; 3] {
        words(boundary::call_stack(call_depth, call_stack, place))
    }
}

fn words(answer: Answer) -> [u64; 3] {
    [answer.number.into(), answer.value as u64, answer.steps.into()]
}

fn state(state: boundary::State) -> model::State {
    let boundary::State { next_operator, operand_depth, call_depth, effect, effect_operator } = state;
    model::State { next_operator, operand_depth, call_depth, effect, effect_operator }
}

fn relent<'a>(lent: &'a mut Lent) -> boundary::Lent<'a> {
    let model::State { next_operator, operand_depth, call_depth, effect, effect_operator } = lent.state;
    boundary::Lent {
        state: boundary::State { next_operator, operand_depth, call_depth, effect, effect_operator },
        tables: boundary::Tables {
            text: lent.text.into(),
            operators: lent.operators.into(),
            labels: lent.labels.into(),
            operator_count: lent.operator_count,
            label_count: lent.label_count,
        },
        operand_stack: (&mut *lent.operand_stack).into(),
        call_stack: (&mut *lent.call_stack).into(),
        memory: (&mut *lent.memory).into(),
    }
}
