//! The examples in the original's documentation, with the changes that README shows.

use stack_assembly::{Effect, Eval, Script, Value};

#[test]
fn one_and_two_are_three() {
    let script = Script::compile("1 2 +").unwrap();

    let mut eval = Eval::new();
    eval.run(&script, 1_000).unwrap();

    assert_eq!(eval.operand_stack().to_i32_slice(), &[3]);
}

#[test]
fn a_number_is_incremented_between_yields() {
    let script = Script::compile(
        "
        0

        increment:
            1 +
            yield
            @increment jump
        ",
    )
    .unwrap();

    let mut eval = Eval::new();

    let ran = eval.run(&script, 1_000).unwrap();
    assert_eq!(ran.effect, Effect::Yield);
    assert_eq!(eval.operand_stack().to_u32_slice(), &[1]);

    eval.clear_effect();

    let ran = eval.run(&script, 1_000).unwrap();
    assert_eq!(ran.effect, Effect::Yield);
    assert_eq!(eval.operand_stack().to_u32_slice(), &[2]);
}

#[test]
fn values_come_from_either_reading() {
    assert_eq!(Value::from(3i32).to_u32(), 3);
    assert_eq!(Value::from(5u32).to_i32(), 5);
}

#[test]
fn an_operator_is_mapped_to_its_source() {
    let script = Script::compile("1 # one\nrotate_left").unwrap();
    let mut eval = Eval::new();
    let ran = eval.run(&script, 1_000).unwrap();
    let range = script.map_operator_to_source(&ran.operator).unwrap();
    assert_eq!((ran.effect, &script.text()[range]), (Effect::OperandStackUnderflow, "rotate_left"));
}

#[test]
fn the_call_stack_is_listed_from_the_top() {
    let script = Script::compile("@f call f: 7 @g call g: yield").unwrap();
    let mut eval = Eval::new();
    eval.run(&script, 1_000).unwrap();
    let calls: Vec<u32> = eval.call_stack().map(|operator| operator.value()).collect();
    assert_eq!(calls, [4, 1]);
    assert_eq!(eval.call_stack().next().unwrap().to_string(), "4");
}

#[test]
fn steps_are_made_one_by_one() {
    let script = Script::compile("1 yield").unwrap();
    let mut eval = Eval::new();
    assert_eq!(eval.step(&script), Ok(None));
    assert_eq!(eval.step(&script), Ok(Some((Effect::Yield, 1.into()))));
    assert_eq!(eval.effect(), Some((Effect::Yield, 1.into())));
    assert_eq!(eval.clear_effect(), Some((Effect::Yield, 1.into())));
    assert_eq!((eval.clear_effect(), eval.effect()), (None, None));
}
