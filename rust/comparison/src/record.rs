//! The fixed list of the Rust's answers, for the program `recorded`: how it is written, and read again.
//!
//! A folder has a file for each kind, of at most 131,072 bytes and made of whole cases. A case is a list of numbers. A number
//! below 255 is one byte; any other is the byte 255 and then four bytes, the low one first. A case:
//!
//! ```text
//! numbers                what
//! 9                      the text's length; words to lend: operand stack, call stack, memory; how many operators, labels and
//!                        calls follow; the depths at the end: operand stack, call stack
//! text's length          the text's bytes: none is 255 in UTF-8
//! 4 for each operator    its record
//! 3 for each label       its record
//! 11 for each call       code (1 step, 2 run, 3 clear, 4 push, 5 pop, 6 read, 7 write), first operand, second operand (0 where
//!                        there is none); then what the Rust answers: number, value, steps, and the state after it: next
//!                        operator, operand depth, call depth, effect, effect operator
//! operand depth          the operand stack at the end, from the bottom
//! call depth             the call stack at the end, likewise
//! memory words           the memory at the end
//! ```
//!
//! The list meets no limit and has no forged state, since the Rust has no answer there. At most 400 bytes of text, 128
//! operators, 64 labels, 64 operand words, 16 call words, 20 words of memory and 20 calls.

use crate::case::{Action, Case, Sizes};
use crate::kinds::KINDS;
use crate::rust_side::RustSide;
use crate::world::World;
use model::{Call, Engine, Model, State};
use oracle::Script;
use std::path::{Path, PathBuf};
use std::rc::Rc;
use std::{fs, io};

/// How many cases of each kind are recorded.
const SHARES: [(&str, usize); 9] = [
    ("short texts", 500),
    ("scalar values", 300),
    ("numbers", 400),
    ("words on edge values", 900),
    ("short scripts", 700),
    ("random texts", 300),
    ("random scripts", 300),
    ("loops", 60),
    ("lists of calls", 540),
];
const LARGEST_FILE: usize = 131_072;

/// The file of cases that must not agree: one case, once for each of its answers, with that answer changed.
const ALTERED: &str = "altered";

/// The file of a kind.
fn file(folder: &Path, name: &str) -> PathBuf {
    folder.join(name.replace(' ', "_"))
}

/// Writes the list, and says how many cases it has.
pub fn write(folder: &Path, seed: u64) -> io::Result<usize> {
    fs::create_dir_all(folder)?;
    let mut count = 0;
    for (name, share) in SHARES {
        let kind = KINDS.iter().find(|kind| kind.name == name).expect("the kind is there");
        let cases = (0..kind.cases).map(|number| kind.case(seed, number));
        let cases: Vec<Vec<u32>> = cases.filter_map(|case| recorded(&case)).take(share).collect();
        count += cases.len();
        let bytes: Vec<u8> = cases.concat().into_iter().flat_map(encoded).collect();
        assert!(bytes.len() <= LARGEST_FILE, "{name} are {} bytes", bytes.len());
        fs::write(file(folder, name), bytes)?;
        if name == "lists of calls" {
            let case = cases.iter().find(|case| has_all_parts(case)).expect("one has all parts");
            let bytes: Vec<u8> = altered(case).into_iter().flatten().flat_map(encoded).collect();
            fs::write(folder.join(ALTERED), bytes)?;
        }
    }
    Ok(count)
}

/// Whether a case has operators, labels, calls, operands, entries on the call stack and memory.
fn has_all_parts(case: &[u32]) -> bool {
    case[3..9].iter().all(|&count| count > 0)
}

/// A case, once for each number that the engine is to answer, with that number changed.
fn altered(case: &[u32]) -> Vec<Vec<u32>> {
    let [text, operators, labels, calls] = [0, 4, 5, 6].map(|place| case[place] as usize);
    let called = 9 + text + 4 * operators + 3 * labels;
    let asked = |place: usize| (called..called + 11 * calls).contains(&place) && (place - called) % 11 < 3;
    let changed = |place: usize| {
        let mut case = case.to_vec();
        case[place] ^= 1;
        case
    };
    (9 + text..case.len()).filter(|&place| !asked(place)).map(changed).collect()
}

fn encoded(number: u32) -> Vec<u8> {
    match u8::try_from(number) {
        Ok(small) if small < 255 => vec![small],
        _ => [&[255], &number.to_le_bytes()[..]].concat(),
    }
}

/// The numbers that are encoded, or none where the last is cut off.
fn decoded(mut bytes: &[u8]) -> Option<Vec<u32>> {
    let mut numbers = Vec::new();
    while let Some((&first, rest)) = bytes.split_first() {
        let (number, rest) = match first {
            255 => rest.split_first_chunk().map(|(&four, rest)| (u32::from_le_bytes(four), rest))?,
            small => (small.into(), rest),
        };
        numbers.push(number);
        bytes = rest;
    }
    Some(numbers)
}

/// A case with the Rust's answers, or none where it has no answer, a limit is met, or the case is too large.
fn recorded(case: &Case) -> Option<Vec<u32>> {
    let text = std::str::from_utf8(&case.text).ok().filter(|text| text.len() <= 400)?;
    let calls = case.actions.iter().map(|action| if let Action::Call(call) = action { Some(*call) } else { None });
    let calls: Vec<Call> = calls.collect::<Option<Vec<_>>>().filter(|calls| calls.len() <= 20)?;
    let mut rust = RustSide::fresh(Rc::new(Script::compile(text)), case.sizes.memory);
    let lent = [case.sizes.operand_stack, case.sizes.call_stack, case.sizes.memory];
    if lent[0] > 64 || lent[1] > 16 || lent[2] > 20 {
        return None;
    }
    let mut world = World::new(case);
    let mut later: Vec<u32> = text.bytes().map(u32::from).collect();
    later.extend(records(&mut world, &rust)?);
    for &call in &calls {
        later.extend(call_words(call));
        later.extend(rust.perform(call)?.map(|number| number as u32));
        later.extend(rust.state_words());
        if meets_limit(&mut world, call) {
            return None;
        }
    }
    later.extend(rust.live_words());
    let (operators, labels) = rust.counts();
    let [operand_depth, call_depth] = rust.depths();
    let first = [text.len(), lent[0], lent[1], lent[2], operators, labels, calls.len(), operand_depth, call_depth];
    Some(first.into_iter().map(|number| number as u32).chain(later).collect())
}

/// All records, in a world that then stands at the start, or none where the tables are too small or there are too many.
/// The Rust keeps a label's name and not its place, which is therefore looked up in the text.
fn records(world: &mut World, rust: &RustSide) -> Option<Vec<u32>> {
    let (text, operators, labels) = world.tables();
    let out = Model.compile(text, operators, labels);
    (world.operator_count, world.label_count) = rust.counts();
    if out[0] != 0 || world.operator_count > 128 || world.label_count > 64 {
        return None;
    }
    rust.check_records(world).expect("the model's records are the Rust's");
    world.state = State::from_words(Model.fresh(world.memory.lent_mut()));
    let operators = &world.operators.lent()[..4 * world.operator_count];
    Some([operators, &world.labels.lent()[..3 * world.label_count]].concat())
}

/// Whether a call is refused for a size or its budget, by the model.
fn meets_limit(world: &mut World, call: Call) -> bool {
    let out = Model.call(call, &mut world.lent());
    world.state = State::answered(&out);
    matches!(out[0], 27..=29)
}

fn call_words(call: Call) -> [u32; 3] {
    match call {
        Call::Step => [1, 0, 0],
        Call::Run { budget } => [2, budget, 0],
        Call::Clear => [3, 0, 0],
        Call::Push { word } => [4, word, 0],
        Call::Pop => [5, 0, 0],
        Call::Read { address } => [6, address, 0],
        Call::Write { address, word } => [7, address, word],
    }
}

fn call_of([code, first, second]: [u32; 3]) -> Call {
    match code {
        1 => Call::Step,
        2 => Call::Run { budget: first },
        3 => Call::Clear,
        4 => Call::Push { word: first },
        5 => Call::Pop,
        6 => Call::Read { address: first },
        _ => Call::Write { address: first, word: second },
    }
}

/// Reads the list again, and plays it with an engine: how many cases there are, and how many agree.
pub fn replay(folder: &Path, engine: &dyn Engine) -> io::Result<(usize, usize)> {
    let (mut cases, mut agreeing) = (0, 0);
    for (name, _) in SHARES {
        let played = replay_file(&file(folder, name), engine)?;
        cases += played.0;
        agreeing += played.1;
    }
    Ok((cases, agreeing))
}

/// The same for the altered cases, of which none may agree.
pub fn replay_altered(folder: &Path, engine: &dyn Engine) -> io::Result<(usize, usize)> {
    replay_file(&folder.join(ALTERED), engine)
}

fn replay_file(path: &Path, engine: &dyn Engine) -> io::Result<(usize, usize)> {
    let numbers = decoded(&fs::read(path)?).ok_or(io::ErrorKind::UnexpectedEof)?;
    let mut reader = Reader { numbers: &numbers };
    let (mut cases, mut agreeing) = (0, 0);
    while !reader.numbers.is_empty() {
        cases += 1;
        agreeing += usize::from(reader.case(engine));
    }
    Ok((cases, agreeing))
}

struct Reader<'a> {
    numbers: &'a [u32],
}

impl<'a> Reader<'a> {
    fn take(&mut self, count: usize) -> &'a [u32] {
        let (taken, rest) = self.numbers.split_at(count);
        self.numbers = rest;
        taken
    }

    fn words<const COUNT: usize>(&mut self) -> [u64; COUNT] {
        let mut words = self.take(COUNT).iter().map(|&number| number.into());
        [(); COUNT].map(|()| words.next().expect("there are as many"))
    }

    fn case(&mut self, engine: &dyn Engine) -> bool {
        let [length, operand_stack, call_stack, memory, operators, labels, calls, operand_depth, call_depth] =
            self.words().map(|word| word as usize);
        let text: Vec<u8> = self.take(length).iter().map(|&byte| byte as u8).collect();
        let mut case = Case::new(text, Vec::new());
        case.sizes = Sizes { operators: 4 * operators, labels: 3 * labels, operand_stack, call_stack, memory };
        let mut world = World::new(&case);
        let mut agrees = self.compiled(&mut world, [operators, labels], engine);
        world.state = State::from_words(engine.fresh(world.memory.lent_mut()));
        for _ in 0..calls {
            agrees &= self.called(&mut world, engine);
        }
        agrees &= [world.state.operand_depth, world.state.call_depth] == [operand_depth, call_depth];
        agrees &= world.operand_stack.lent().starts_with(self.take(operand_depth));
        agrees &= world.call_stack.lent().starts_with(self.take(call_depth));
        self.take(memory) == world.memory.lent() && agrees
    }

    fn compiled(&mut self, world: &mut World, counts: [usize; 2], engine: &dyn Engine) -> bool {
        let [operators, labels] = counts.map(|count| count as u64);
        let (text, operator_table, label_table) = world.tables();
        let out = engine.compile(text, operator_table, label_table);
        [world.operator_count, world.label_count] = counts;
        let records = (self.take(4 * counts[0]), self.take(3 * counts[1]));
        out == [0, operators, operators, labels] && records == (world.operators.lent(), world.labels.lent())
    }

    fn called(&mut self, world: &mut World, engine: &dyn Engine) -> bool {
        let call = call_of(self.words().map(|word| word as u32));
        let out = engine.call(call, &mut world.lent());
        world.state = State::answered(&out);
        out == self.words()
    }
}
