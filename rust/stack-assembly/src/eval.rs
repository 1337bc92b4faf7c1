//! The ongoing evaluation of a script.

use crate::boundary::{self, Answer, Lent, State, Tables};
use crate::buffers::{Buffers, Sizes};
use crate::effect::Effect;
use crate::refusal::{Refusal, Stopped};
use crate::script::{OperatorIndex, Script};
use crate::value::{Value, Words};

/// # The ongoing evaluation of a script
///
/// ```
/// use stack_assembly::{Effect, Eval, Script};
///
/// let script = Script::compile("1 2 +")?;
///
/// let mut eval = Eval::new();
/// let ran = eval.run(&script, 1_000)?;
///
/// assert_eq!((ran.effect, ran.steps), (Effect::OutOfOperators, 4));
/// assert_eq!(eval.operand_stack().to_i32_slice(), &[3]);
/// # Ok::<(), Box<dyn std::error::Error>>(())
/// ```
#[derive(Clone, Debug)]
pub struct Eval {
    state: State,
    buffers: Buffers,
}

/// # What ended a run: an effect, the operator that triggered it, and the steps made
#[derive(Clone, Copy, Debug, Eq, Hash, PartialEq)]
pub struct Ran {
    pub effect: Effect,
    pub operator: OperatorIndex,
    pub steps: u32,
}

impl Default for Eval {
    fn default() -> Self {
        Eval::new()
    }
}

impl Eval {
    /// # A fresh evaluation with the default sizes
    pub fn new() -> Eval {
        Eval::with_sizes(Sizes::default())
    }

    /// # A fresh evaluation with stacks and a memory of these sizes
    ///
    /// ```
    /// use stack_assembly::{Eval, Refusal, Script, Sizes};
    ///
    /// let script = Script::compile("1 2")?;
    /// let mut eval = Eval::with_sizes(Sizes { operand_stack: 1, ..Sizes::default() });
    ///
    /// let stopped = eval.run(&script, 1_000).unwrap_err();
    /// assert_eq!((stopped.refusal, stopped.steps), (Refusal::OperandStackFull { depth: 1 }, 1));
    /// # Ok::<(), Refusal>(())
    /// ```
    pub fn with_sizes(sizes: Sizes) -> Eval {
        Eval::with_buffers(Buffers::with_sizes(sizes))
    }

    /// # A fresh evaluation in these buffers
    ///
    /// It gives the same as one with new stacks and a new memory of the same sizes.
    pub fn with_buffers(mut buffers: Buffers) -> Eval {
        let state = boundary::new(&mut buffers.memory);
        Eval { state, buffers }
    }

    /// # End the evaluation, and hand its buffers on
    ///
    /// Every word in them is zero: the memory and the words that are still on a stack are cleared here, and each other word became
    /// zero when a call released it.
    ///
    /// ```
    /// use stack_assembly::{Eval, Script};
    ///
    /// let script = Script::compile("4 5 + 7 71 write")?;
    /// let mut eval = Eval::new();
    /// eval.run(&script, 1_000)?;
    /// assert_eq!(eval.operand_stack().to_i32_slice(), &[9]);
    /// assert_eq!(eval.read(7)?.to_i32(), 71);
    ///
    /// let mut next = Eval::with_buffers(eval.into_buffers());
    /// assert!(next.operand_stack().is_empty());
    /// assert_eq!(next.read(7)?.to_i32(), 0);
    /// # Ok::<(), Box<dyn std::error::Error>>(())
    /// ```
    pub fn into_buffers(self) -> Buffers {
        let Eval { state, mut buffers } = self;
        buffers.operand_stack[..state.operand_depth].fill(0);
        buffers.call_stack[..state.call_depth].fill(0);
        buffers.memory.fill(0);
        buffers
    }

    /// # Advance the evaluation until it triggers an effect, by at most `budget` steps
    ///
    /// If an effect stands already, one step is made: it advances the next operator and finds the effect. Clear it first to
    /// continue.
    ///
    /// ```
    /// use stack_assembly::{Eval, Refusal, Script};
    ///
    /// let forever = Script::compile("loop: @loop jump")?;
    /// let stopped = Eval::new().run(&forever, 1_000).unwrap_err();
    /// assert_eq!((stopped.refusal, stopped.steps), (Refusal::BudgetUsed { next: 0 }, 1_000));
    /// # Ok::<(), Refusal>(())
    /// ```
    pub fn run(&mut self, script: &Script, budget: u32) -> Result<Ran, Stopped> {
        let answer = self.call(script.tables(), |lent| boundary::run(lent, budget));
        match Effect::from_number(answer.number) {
            Some(effect) => Ok(Ran { effect, operator: (answer.value as u32).into(), steps: answer.steps }),
            None => Err(Stopped { refusal: refused(answer), steps: answer.steps }),
        }
    }

    /// # Advance the evaluation by one step
    ///
    /// Answers the effect that stands after it, and the operator that triggered it.
    pub fn step(&mut self, script: &Script) -> Result<Option<(Effect, OperatorIndex)>, Refusal> {
        let answer = self.call(script.tables(), boundary::step);
        if answer.number == 0 {
            return Ok(None);
        }
        effect_of(answer).map(Some).ok_or_else(|| refused(answer))
    }

    /// # Clear the standing effect, if any, and answer what was cleared
    pub fn clear_effect(&mut self) -> Option<(Effect, OperatorIndex)> {
        effect_of(self.call(Tables::default(), boundary::clear))
    }

    /// # The standing effect, and the operator that triggered it
    pub fn effect(&self) -> Option<(Effect, OperatorIndex)> {
        Some((Effect::from_number(self.state.effect)?, self.state.effect_operator.into()))
    }

    /// # The operator that is evaluated next
    pub fn next_operator(&self) -> OperatorIndex {
        self.state.next_operator.into()
    }

    /// # The operand stack, from bottom to top
    pub fn operand_stack(&self) -> Words<'_> {
        Words::new(&self.buffers.operand_stack[..self.state.operand_depth])
    }

    /// # The memory
    pub fn memory(&self) -> Words<'_> {
        Words::new(&self.buffers.memory)
    }

    /// # The call stack, starting with the topmost entry
    ///
    /// As in the original, each entry is listed as the operator before the one at which evaluation continues after `return`:
    /// that of the call.
    pub fn call_stack(&self) -> impl Iterator<Item = OperatorIndex> {
        (0..self.state.call_depth).map(|place| {
            let answer = boundary::call_stack(self.state.call_depth, &self.buffers.call_stack, place);
            OperatorIndex::from(answer.value as u32)
        })
    }

    /// # Push a word onto the operand stack
    pub fn push(&mut self, value: impl Into<Value>) -> Result<(), Refusal> {
        let word = value.into().to_u32();
        word_of(self.call(Tables::default(), |lent| boundary::push(lent, word))).map(|_| ())
    }

    /// # Pop a word from the operand stack
    pub fn pop(&mut self) -> Result<Value, Refusal> {
        word_of(self.call(Tables::default(), boundary::pop))
    }

    /// # Read the word at an address
    pub fn read(&mut self, address: u32) -> Result<Value, Refusal> {
        word_of(self.call(Tables::default(), |lent| boundary::read(lent, address)))
    }

    /// # Write a word to an address
    pub fn write(&mut self, address: u32, value: impl Into<Value>) -> Result<(), Refusal> {
        let word = value.into().to_u32();
        word_of(self.call(Tables::default(), |lent| boundary::write(lent, address, word))).map(|_| ())
    }

    fn call(&mut self, tables: Tables, call: impl FnOnce(&mut Lent) -> Answer) -> Answer {
        let mut lent = Lent {
            state: self.state,
            tables,
            operand_stack: (&mut *self.buffers.operand_stack).into(),
            call_stack: (&mut *self.buffers.call_stack).into(),
            memory: (&mut *self.buffers.memory).into(),
        };
        let answer = call(&mut lent);
        self.state = lent.state;
        answer
    }
}

fn effect_of(answer: Answer) -> Option<(Effect, OperatorIndex)> {
    Some((Effect::from_number(answer.number)?, (answer.value as u32).into()))
}

fn word_of(answer: Answer) -> Result<Value, Refusal> {
    if answer.number == 0 { Ok((answer.value as u32).into()) } else { Err(refused(answer)) }
}

fn refused(answer: Answer) -> Refusal {
    Refusal::from_answer(answer.number, answer.value as u64).expect("the engine answers 0, an effect or a refusal")
}
