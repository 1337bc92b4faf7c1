//! A case: a text, the sizes that are lent, and a list of calls, with forgeries between them.

use model::Call;

#[derive(Clone, Debug, PartialEq)]
pub struct Case {
    pub text: Vec<u8>,
    pub sizes: Sizes,
    /// Seeds the words that stand in the buffers before they are lent, and the bytes around the text.
    pub fill: u32,
    pub actions: Vec<Action>,
}

/// The lengths of the lent buffers, in words.
#[derive(Clone, Copy, Debug, PartialEq)]
pub struct Sizes {
    pub operators: usize,
    pub labels: usize,
    pub operand_stack: usize,
    pub call_stack: usize,
    pub memory: usize,
}

#[derive(Clone, Copy, Debug, PartialEq)]
pub enum Action {
    Call(Call),
    /// What a host changes behind the engine's back.
    Forge(Place, u64),
}

/// What can be forged: the state, the counts, words of tables, stacks and memory, bytes and length of the text.
#[derive(Clone, Copy, Debug, PartialEq)]
pub enum Place {
    NextOperator,
    OperandDepth,
    CallDepth,
    Effect,
    EffectOperator,
    OperatorCount,
    LabelCount,
    TextLength,
    TextByte(usize),
    Operators(usize),
    Labels(usize),
    OperandStack(usize),
    CallStack(usize),
    Memory(usize),
}

impl Place {
    /// Whether it belongs to the script: text, tables and counts.
    pub fn is_of_script(self) -> bool {
        matches!(
            self,
            Place::OperatorCount
                | Place::LabelCount
                | Place::TextLength
                | Place::TextByte(_)
                | Place::Operators(_)
                | Place::Labels(_)
        )
    }
}

impl Case {
    pub fn new(text: impl Into<Vec<u8>>, actions: Vec<Action>) -> Case {
        Case { text: text.into(), sizes: Sizes::AMPLE, fill: 1, actions }
    }

    pub fn calls(text: impl Into<Vec<u8>>, calls: &[Call]) -> Case {
        Case::new(text, calls.iter().map(|&call| Action::Call(call)).collect())
    }
}

impl Sizes {
    pub const AMPLE: Sizes = Sizes { operators: 256, labels: 96, operand_stack: 64, call_stack: 16, memory: 16 };
}
