//! Every refusal, and that nothing is changed by one.

use stack_assembly::boundary::{self, Lent, State, Tables};
use stack_assembly::{Eval, Refusal, Script, Sizes, Stopped};

fn small() -> Eval {
    Eval::with_sizes(Sizes { operand_stack: 2, call_stack: 1, memory: 3 })
}

#[test]
fn of_compile() {
    assert_eq!(Script::compile(b"ab\xED\xA0\x80").unwrap_err(), Refusal::IllFormedText { offset: 2 });
    assert_eq!(Script::compile(vec![b' '; 65_536]).unwrap_err(), Refusal::TextTooLong);
    assert!(Script::compile(vec![b' '; 65_535]).is_ok());
    assert_eq!(Script::compile_within("1 2 a:", 1, 0).unwrap_err(), Refusal::TooManyOperators { count: 2 });
    assert_eq!(Script::compile_within("1 2 a:", 2, 0).unwrap_err(), Refusal::TooManyLabels { count: 1 });
    assert_eq!(Script::compile_within("1 2 a:", 2, 1).unwrap().label_count(), 1);
}

#[test]
fn of_a_run() {
    let script = Script::compile("1 2 3").unwrap();
    let mut eval = small();
    let full = Stopped { refusal: Refusal::OperandStackFull { depth: 2 }, steps: 2 };
    assert_eq!(eval.run(&script, 10), Err(full));
    assert_eq!(eval.run(&script, 10), Err(Stopped { steps: 0, ..full }));
    assert_eq!((eval.next_operator().value(), eval.operand_stack().to_i32_slice()), (2, &[1, 2][..]));

    let script = Script::compile("f: @f call").unwrap();
    let stopped = small().run(&script, 10).unwrap_err();
    assert_eq!(stopped, Stopped { refusal: Refusal::CallStackFull { depth: 1 }, steps: 3 });

    let script = Script::compile("loop: @loop jump").unwrap();
    let mut eval = small();
    for steps in [0, 7, 20] {
        let stopped = eval.run(&script, steps).unwrap_err();
        assert_eq!((stopped.refusal.number(), stopped.steps, stopped.refusal.is_limit()), (29, steps, true));
    }
}

#[test]
fn of_a_step() {
    let script = Script::compile("1 2 3").unwrap();
    let mut eval = small();
    assert_eq!((eval.step(&script), eval.step(&script)), (Ok(None), Ok(None)));
    assert_eq!(eval.step(&script), Err(Refusal::OperandStackFull { depth: 2 }));
    assert_eq!(eval.next_operator().value(), 2);
}

#[test]
fn of_the_host() {
    let mut eval = small();
    assert_eq!(eval.pop(), Err(Refusal::OperandStackEmpty));
    eval.push(1).unwrap();
    eval.push(-1).unwrap();
    assert_eq!(eval.push(2), Err(Refusal::OperandStackFull { depth: 2 }));
    assert_eq!(eval.pop().unwrap().to_i32(), -1);
    eval.write(2, 9).unwrap();
    assert_eq!(eval.write(3, 9), Err(Refusal::NotThere { place: 3 }));
    assert_eq!((eval.read(2).unwrap().to_u32(), eval.read(u32::MAX)), (9, Err(Refusal::NotThere { place: 4294967295 })));
    assert_eq!(eval.memory().to_u32_slice(), &[0, 0, 9]);
}

/// A state and tables as only a host with buffers of its own can lend them.
fn stepped(state: State, operators: &[u32]) -> [u64; 3] {
    let (text, operator_count, mut operands) = (b"1".as_slice(), operators.len() / 4, [0; 2]);
    let tables = Tables { text: text.into(), operators: operators.into(), operator_count, ..Tables::default() };
    let operand_stack = operands.as_mut_slice().into();
    let answer = boundary::step(&mut Lent { state, tables, operand_stack, ..Lent::default() });
    [answer.number.into(), answer.value as u64, answer.steps.into()]
}

#[test]
fn of_forged_states() {
    let fresh = State::default();
    assert_eq!(stepped(fresh, &[1, 0, 1, 5]), [0, 0, 1]);
    assert_eq!(stepped(State { operand_depth: 3, ..fresh }, &[1, 0, 1, 5]), [25, 0, 0]);
    assert_eq!(stepped(State { call_depth: 1, ..fresh }, &[1, 0, 1, 5]), [25, 0, 0]);
    assert_eq!(stepped(State { effect: 12, ..fresh }, &[1, 0, 1, 5]), [25, 0, 0]);
    for damaged in [[3, 0, 1, 5], [1, 1, 1, 5], [1, 0, 2, 5]] {
        assert_eq!(stepped(fresh, &damaged), [26, 0, 0]);
    }
}

#[test]
fn numbers_and_messages() {
    for number in 21..=31 {
        let refusal = Refusal::from_answer(number, 5).unwrap();
        let value = match number {
            22 => 65_535,
            25 | 30 => 0,
            _ => 5,
        };
        assert_eq!((refusal.number(), refusal.value()), (number, value));
        assert!(!refusal.to_string().is_empty());
    }
    assert_eq!((Refusal::from_answer(0, 0), Refusal::from_answer(20, 0), Refusal::from_answer(32, 0)), (None, None, None));
    let stopped = Stopped { refusal: Refusal::BudgetUsed { next: 4 }, steps: 9 };
    assert_eq!(stopped.to_string(), "the budget is used; the next operator is 4 (after 9 steps)");
}
