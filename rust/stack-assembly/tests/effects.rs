//! Every effect, with the operator that triggers it and what is left.

use stack_assembly::{Effect, Eval, Script};

/// The effect of a run, its operator, its steps, and the operands after it.
fn ended(text: &str) -> (Effect, u32, u32, Vec<i32>) {
    let script = Script::compile(text).unwrap();
    let mut eval = Eval::new();
    let ran = eval.run(&script, 1_000).unwrap();
    (ran.effect, ran.operator.value(), ran.steps, eval.operand_stack().to_i32_slice().to_vec())
}

#[test]
fn every_effect() {
    assert_eq!(ended("1 0 assert"), (Effect::AssertionFailed, 2, 3, vec![1]));
    assert_eq!(ended("7 1 0 /"), (Effect::DivisionByZero, 3, 4, vec![7]));
    assert_eq!(ended("-2147483648 -1 /"), (Effect::IntegerOverflow, 2, 3, vec![]));
    assert_eq!(ended("1024 read"), (Effect::InvalidAddress, 1, 2, vec![]));
    assert_eq!(ended("1 1 copy"), (Effect::InvalidOperandStackIndex, 2, 3, vec![1]));
    assert_eq!(ended("1 @nowhere"), (Effect::InvalidReference, 1, 2, vec![1]));
    assert_eq!(ended("1 +"), (Effect::OperandStackUnderflow, 1, 2, vec![]));
    assert_eq!(ended("1 2 +"), (Effect::OutOfOperators, 3, 4, vec![3]));
    assert_eq!(ended("return"), (Effect::Return, 0, 1, vec![]));
    assert_eq!(ended("birdie"), (Effect::UnknownIdentifier, 0, 1, vec![]));
    assert_eq!(ended("yield"), (Effect::Yield, 0, 1, vec![]));
}

#[test]
fn numbers_and_messages() {
    for (effect, number) in Effect::ALL.into_iter().zip(1..) {
        assert_eq!((effect.number(), Effect::from_number(number)), (number, Some(effect)));
        assert!(!effect.to_string().is_empty());
    }
    assert_eq!((Effect::from_number(0), Effect::from_number(12)), (None, None));
}

#[test]
fn a_standing_effect_is_found_again_and_next_advances() {
    let script = Script::compile("yield 5").unwrap();
    let mut eval = Eval::new();
    assert_eq!(eval.run(&script, 10).unwrap().steps, 1);
    assert_eq!(eval.run(&script, 10).unwrap().effect, Effect::Yield);
    assert_eq!(eval.next_operator().value(), 2);
    eval.clear_effect();
    let ran = eval.run(&script, 10).unwrap();
    assert_eq!((ran.effect, ran.operator.value(), ran.steps), (Effect::OutOfOperators, 2, 1));
}
