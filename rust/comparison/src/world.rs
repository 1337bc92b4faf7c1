//! The buffers of one engine: each stands between guard words, and is filled beforehand with words that mean nothing.

use crate::case::{Case, Place};
use crate::random::Random;
use model::{Lent, State};

const GUARD: usize = 4;

/// A buffer between guards.
pub struct Guarded<T> {
    all: Vec<T>,
    first: [T; GUARD],
    last: [T; GUARD],
}

impl<T: Copy + Default + PartialEq> Guarded<T> {
    fn new(length: usize, mut word: impl FnMut() -> T) -> Guarded<T> {
        let all: Vec<T> = (0..length + 2 * GUARD).map(|_| word()).collect();
        let (mut first, mut last) = ([T::default(); GUARD], [T::default(); GUARD]);
        first.copy_from_slice(&all[..GUARD]);
        last.copy_from_slice(&all[GUARD + length..]);
        Guarded { all, first, last }
    }

    pub fn lent(&self) -> &[T] {
        &self.all[GUARD..self.all.len() - GUARD]
    }

    pub fn lent_mut(&mut self) -> &mut [T] {
        let end = self.all.len() - GUARD;
        &mut self.all[GUARD..end]
    }

    fn is_guarded(&self) -> bool {
        self.all[..GUARD] == self.first && self.all[self.all.len() - GUARD..] == self.last
    }
}

pub struct World {
    text: Guarded<u8>,
    text_length: usize,
    pub operators: Guarded<u32>,
    pub labels: Guarded<u32>,
    pub operand_stack: Guarded<u32>,
    pub call_stack: Guarded<u32>,
    pub memory: Guarded<u32>,
    pub state: State,
    pub operator_count: usize,
    pub label_count: usize,
}

/// What stands in the buffers of both stacks.
#[derive(Clone)]
pub struct Stacks {
    pub operands: Vec<u32>,
    pub calls: Vec<u32>,
}

/// Bytes that would lengthen a token, a number or a sequence, were they read.
const BESIDE_TEXT: [u8; 8] = [b'0', b':', 0x80, 0xBF, b'a', b' ', b'@', b'\n'];

impl World {
    pub fn new(case: &Case) -> World {
        let mut random = Random::new(case.fill.into());
        let mut text = Guarded::new(case.text.len(), || random.of(&BESIDE_TEXT));
        text.lent_mut().copy_from_slice(&case.text);
        let mut words = |length| Guarded::new(length, || random.u32());
        World {
            text,
            text_length: case.text.len(),
            operators: words(case.sizes.operators),
            labels: words(case.sizes.labels),
            operand_stack: words(case.sizes.operand_stack),
            call_stack: words(case.sizes.call_stack),
            memory: words(case.sizes.memory),
            state: State::default(),
            operator_count: 0,
            label_count: 0,
        }
    }

    pub fn text(&self) -> &[u8] {
        &self.text.lent()[..self.text_length]
    }

    /// What compile is lent.
    pub fn tables(&mut self) -> (&[u8], &mut [u32], &mut [u32]) {
        (&self.text.lent()[..self.text_length], self.operators.lent_mut(), self.labels.lent_mut())
    }

    pub fn lent(&mut self) -> Lent<'_> {
        Lent {
            state: self.state,
            operator_count: self.operator_count,
            label_count: self.label_count,
            text: &self.text.lent()[..self.text_length],
            operators: self.operators.lent(),
            labels: self.labels.lent(),
            operand_stack: self.operand_stack.lent_mut(),
            call_stack: self.call_stack.lent_mut(),
            memory: self.memory.lent_mut(),
        }
    }

    pub fn stacks(&self) -> Stacks {
        Stacks { operands: self.operand_stack.lent().to_vec(), calls: self.call_stack.lent().to_vec() }
    }

    pub fn is_guarded(&self) -> bool {
        let words = [&self.operators, &self.labels, &self.operand_stack, &self.call_stack, &self.memory];
        self.text.is_guarded() && words.iter().all(|buffer| buffer.is_guarded())
    }

    /// Text and tables, which no call may change.
    pub fn same_script(&self, other: &World) -> bool {
        self.text.lent() == other.text.lent()
            && self.operators.lent() == other.operators.lent()
            && self.labels.lent() == other.labels.lent()
    }

    pub fn forge(&mut self, place: Place, value: u64) {
        let word = value as u32;
        match place {
            Place::NextOperator => self.state.next_operator = word,
            Place::OperandDepth => self.state.operand_depth = value as usize,
            Place::CallDepth => self.state.call_depth = value as usize,
            Place::Effect => self.state.effect = word,
            Place::EffectOperator => self.state.effect_operator = word,
            Place::OperatorCount => self.operator_count = value as usize,
            Place::LabelCount => self.label_count = value as usize,
            Place::TextLength => self.text_length = self.text.lent().len().min(value as usize),
            Place::TextByte(at) => set(self.text.lent_mut(), at, value as u8),
            Place::Operators(at) => set(self.operators.lent_mut(), at, word),
            Place::Labels(at) => set(self.labels.lent_mut(), at, word),
            Place::OperandStack(at) => set(self.operand_stack.lent_mut(), at, word),
            Place::CallStack(at) => set(self.call_stack.lent_mut(), at, word),
            Place::Memory(at) => set(self.memory.lent_mut(), at, word),
        }
    }
}

fn set<T>(buffer: &mut [T], at: usize, value: T) {
    if let Some(place) = buffer.get_mut(at) {
        *place = value;
    }
}
