//! The C boundary's calls on slices: what every engine that is compared can do.

/// The five numbers of the state.
#[derive(Clone, Copy, Debug, Default, Eq, PartialEq)]
pub struct State {
    pub next_operator: u32,
    pub operand_depth: usize,
    pub call_depth: usize,
    pub effect: u32,
    pub effect_operator: u32,
}

/// All that each of the seven calls is lent.
pub struct Lent<'a> {
    pub state: State,
    pub operator_count: usize,
    pub label_count: usize,
    pub text: &'a [u8],
    pub operators: &'a [u32],
    pub labels: &'a [u32],
    pub operand_stack: &'a mut [u32],
    pub call_stack: &'a mut [u32],
    pub memory: &'a mut [u32],
}

/// The seven calls with their operands.
#[derive(Clone, Copy, Debug, Eq, PartialEq)]
pub enum Call {
    Step,
    Run { budget: u32 },
    Clear,
    Push { word: u32 },
    Pop,
    Read { address: u32 },
    Write { address: u32, word: u32 },
}

/// Each function answers as words what the boundary answers, and the seven calls then the state that they leave.
pub trait Engine {
    /// Number, value, operator count, label count.
    fn compile(&self, text: &[u8], operators: &mut [u32], labels: &mut [u32]) -> [u64; 4];
    /// The state of an evaluation that starts, whose memory is zeroed.
    fn fresh(&self, memory: &mut [u32]) -> [u64; 5];
    /// Number, value, steps, then the state.
    fn call(&self, call: Call, lent: &mut Lent) -> [u64; 8];
    /// Number, value, steps, start, end.
    fn source(&self, operator_count: usize, text: &[u8], operators: &[u32], index: u32) -> [u64; 5];
    /// Number, value, steps.
    fn call_stack(&self, call_depth: usize, call_stack: &[u32], place: usize) -> [u64; 3];
}

impl State {
    pub fn words(self) -> [u64; 5] {
        let State { next_operator, operand_depth, call_depth, effect, effect_operator } = self;
        [next_operator.into(), operand_depth as u64, call_depth as u64, effect.into(), effect_operator.into()]
    }

    pub fn from_words(words: [u64; 5]) -> State {
        State {
            next_operator: words[0] as u32,
            operand_depth: words[1] as usize,
            call_depth: words[2] as usize,
            effect: words[3] as u32,
            effect_operator: words[4] as u32,
        }
    }

    /// The state in the answer to a call.
    pub fn answered(out: &[u64; 8]) -> State {
        State::from_words([out[3], out[4], out[5], out[6], out[7]])
    }
}
