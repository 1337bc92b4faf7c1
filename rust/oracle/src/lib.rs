//! The Rust engine that is replaced, its six files unchanged. They are included where a child module can look at what they
//! keep private: [`script::peek`] and [`eval::peek`].

pub mod effect {
    include!(concat!(env!("OUT_DIR"), "/effect.rs"));
}
pub mod value {
    include!(concat!(env!("OUT_DIR"), "/value.rs"));
}
pub mod operand_stack {
    include!(concat!(env!("OUT_DIR"), "/operand_stack.rs"));
}
pub mod memory {
    include!(concat!(env!("OUT_DIR"), "/memory.rs"));
}
#[allow(dead_code)]
pub mod script {
    include!(concat!(env!("OUT_DIR"), "/script.rs"));
    pub mod peek;
}
pub mod eval {
    include!(concat!(env!("OUT_DIR"), "/eval.rs"));
    pub mod peek;
}

pub use effect::Effect;
pub use eval::Eval;
pub use memory::Memory;
pub use operand_stack::OperandStack;
pub use script::{OperatorIndex, Script};
pub use value::Value;

/// Every effect, in the order of effect.rs: the first has number 1.
pub const EFFECTS: [Effect; 11] = [
    Effect::AssertionFailed,
    Effect::DivisionByZero,
    Effect::IntegerOverflow,
    Effect::InvalidAddress,
    Effect::InvalidOperandStackIndex,
    Effect::InvalidReference,
    Effect::OperandStackUnderflow,
    Effect::OutOfOperators,
    Effect::Return,
    Effect::UnknownIdentifier,
    Effect::Yield,
];

/// The number that the definition gives to an effect: its place in effect.rs, from 1.
pub fn number(effect: Effect) -> u32 {
    effect as u32 + 1
}

#[cfg(test)]
mod tests {
    use super::*;

    #[test]
    fn effects_are_numbered_in_order() {
        assert!(EFFECTS.iter().zip(1..).all(|(effect, place)| number(*effect) == place));
    }

    #[test]
    fn overflow_checks_are_off() {
        let script = Script::compile("1 32 shift_left -1 -1 shift_right");
        let mut eval = Eval::new();
        assert_eq!(eval.run(&script).0, Effect::OutOfOperators);
        assert_eq!(eval.operand_stack.to_i32_slice(), &[1, -1]);
    }
}
