//! One case: the engine beside the model and, as far as it can say anything, beside the Rust.

use crate::case::{Action, Case};
use crate::rust_side::{RustSide, Said};
use crate::world::{Stacks, World};
use model::{Call, Engine, Model, State};
use oracle::Script;
use std::fmt::Debug;
use std::rc::Rc;

/// How many answers were compared with what.
#[derive(Clone, Copy, Debug, Default)]
pub struct Counts {
    pub cases: u64,
    pub rust: u64,
    pub limits: u64,
    pub model: u64,
    pub steps: u64,
}

impl Counts {
    fn said(&mut self, said: Said) {
        match said {
            Said::All => self.rust += 1,
            Said::Limit => self.limits += 1,
            Said::Nothing => self.model += 1,
        }
    }

    pub fn add(&mut self, other: Counts) {
        self.cases += other.cases;
        self.rust += other.rust;
        self.limits += other.limits;
        self.model += other.model;
        self.steps += other.steps;
    }
}

type Checked<T = ()> = Result<T, String>;

fn same<T: PartialEq + Debug>(what: &str, engine: T, model: T) -> Checked {
    if engine == model { Ok(()) } else { Err(format!("{what}: {engine:?}, the model has {model:?}")) }
}

fn same_as_rust<T: PartialEq + Debug>(what: &str, engine: T, rust: T) -> Checked {
    if engine == rust { Ok(()) } else { Err(format!("{what}: {engine:?}, the Rust has {rust:?}")) }
}

/// The first word in which two buffers of one length differ.
fn same_words(what: &str, engine: &[u32], model: &[u32]) -> Checked {
    match engine.iter().zip(model).position(|(mine, theirs)| mine != theirs) {
        Some(at) => same(&format!("word {at} of {what}"), engine[at], model[at]),
        None => Ok(()),
    }
}

fn stays(what: &str, stayed: bool) -> Checked {
    if stayed { Ok(()) } else { Err(format!("{what}: a word changed that must stay")) }
}

/// Plays a case, and says what differs first.
pub fn check(case: &Case, engine: &dyn Engine, counts: &mut Counts) -> Checked {
    counts.cases += 1;
    let mut play = Play::new(case, engine);
    if play.compile(counts)? {
        play.start()?;
        for (place, action) in case.actions.iter().enumerate() {
            let made = play.act(action, counts);
            made.map_err(|difference| format!("action {place}, {action:?}: {difference}"))?;
        }
        play.beside(counts)?;
    }
    stays("text and tables", play.answered.same_script(&play.defined))?;
    stays("around the buffers", play.answered.is_guarded())
}

struct Play<'a> {
    engine: &'a dyn Engine,
    /// The buffers that the engine is lent.
    answered: World,
    /// The same, as the model leaves them.
    defined: World,
    /// The Rust's script, as long as text and tables are those that compile left.
    script: Option<Rc<Script>>,
    rust: Option<RustSide>,
    was_forged: bool,
}

impl<'a> Play<'a> {
    fn new(case: &Case, engine: &'a dyn Engine) -> Play<'a> {
        let script = std::str::from_utf8(&case.text).ok().map(|text| Rc::new(Script::compile(text)));
        let rust = script.clone().map(|script| RustSide::fresh(script, case.sizes.memory));
        Play { engine, answered: World::new(case), defined: World::new(case), script, rust, was_forged: false }
    }

    /// Whether the text was accepted: no call follows a refused compile.
    fn compile(&mut self, counts: &mut Counts) -> Checked<bool> {
        let (text, operators, labels) = self.answered.tables();
        let out = self.engine.compile(text, operators, labels);
        let (text, operators, labels) = self.defined.tables();
        same("compile", out, Model.compile(text, operators, labels))?;
        same_words("the operator table", self.answered.operators.lent(), self.defined.operators.lent())?;
        same_words("the label table", self.answered.labels.lent(), self.defined.labels.lent())?;
        self.check_compile(&out, counts)?;
        for world in [&mut self.answered, &mut self.defined] {
            world.operator_count = out[2] as usize;
            world.label_count = out[3] as usize;
        }
        Ok(out[0] == 0)
    }

    fn check_compile(&self, out: &[u64; 4], counts: &mut Counts) -> Checked {
        let world = &self.answered;
        let Some(rust) = &self.rust else {
            let offset = std::str::from_utf8(world.text()).map_or_else(|error| error.valid_up_to() as u64, |_| u64::MAX);
            let (number, value) = if world.text().len() > 65_535 { (22, 65_535) } else { (21, offset) };
            counts.said(if number == 21 { Said::All } else { Said::Nothing });
            return same_as_rust("compile", *out, [number, value, 0, 0]);
        };
        let (operators, labels) = rust.counts();
        let (room, label_room) = (world.operators.lent().len() / 4, world.labels.lent().len() / 3);
        if world.text().len() > 65_535 {
            counts.said(Said::Nothing);
        } else if operators > room || labels > label_room {
            counts.said(Said::Limit);
            let limit = if operators > room { [23, operators as u64, 0, 0] } else { [24, labels as u64, 0, 0] };
            same_as_rust("compile", *out, limit)?;
        } else {
            counts.said(Said::All);
            let counted = [0, operators as u64, operators as u64, labels as u64];
            same_as_rust("compile", *out, counted)?;
            rust.check_records(world)?;
        }
        Ok(())
    }

    fn start(&mut self) -> Checked {
        let fresh = self.engine.fresh(self.answered.memory.lent_mut());
        same("new", fresh, Model.fresh(self.defined.memory.lent_mut()))?;
        same_words("a fresh memory", self.answered.memory.lent(), self.defined.memory.lent())
    }

    fn act(&mut self, action: &Action, counts: &mut Counts) -> Checked {
        match *action {
            Action::Call(call) => self.call(call, counts),
            Action::Forge(place, value) => {
                self.answered.forge(place, value);
                self.defined.forge(place, value);
                self.was_forged = true;
                self.script.take_if(|_| place.is_of_script());
                Ok(())
            }
        }
    }

    /// After a forgery the Rust is put into the state that is lent.
    fn catch_up(&mut self) {
        if std::mem::take(&mut self.was_forged) {
            self.rust = RustSide::viewed(&self.answered, self.script.clone());
        }
    }

    fn call(&mut self, call: Call, counts: &mut Counts) -> Checked {
        self.catch_up();
        let before = self.answered.stacks();
        let out = self.engine.call(call, &mut self.answered.lent());
        same("the answer and the state", out, Model.call(call, &mut self.defined.lent()))?;
        counts.steps += out[2];
        self.answered.state = State::answered(&out);
        self.defined.state = self.answered.state;
        self.check_words()?;
        let said = self.check_rust(call, &out, before)?;
        counts.said(said);
        Ok(())
    }

    /// Every word of both stacks and of the memory is the model's; text and tables are as they were.
    fn check_words(&self) -> Checked {
        let (mine, theirs) = (&self.answered, &self.defined);
        same_words("the operand stack", mine.operand_stack.lent(), theirs.operand_stack.lent())?;
        same_words("the call stack", mine.call_stack.lent(), theirs.call_stack.lent())?;
        same_words("the memory", mine.memory.lent(), theirs.memory.lent())?;
        stays("text and tables", mine.same_script(theirs))
    }

    fn check_rust(&mut self, call: Call, out: &[u64; 8], before: Stacks) -> Checked<Said> {
        let Some(rust) = &mut self.rust else { return Ok(Said::Nothing) };
        let followed = rust.follow(call, out, &self.answered)?;
        rust.check_state(&self.answered)?;
        rust.check_stacks(&self.answered, before, &followed)?;
        Ok(followed.said)
    }

    fn beside(&mut self, counts: &mut Counts) -> Checked {
        self.catch_up();
        let count = self.answered.operator_count;
        let room = self.answered.operators.lent().len() / 4;
        for index in places(count, room.min(300)) {
            let index = index as u32;
            self.source(index, counts).map_err(|difference| format!("source of {index}: {difference}"))?;
        }
        let depth = self.answered.state.call_depth;
        let room = self.answered.call_stack.lent().len();
        for place in places(depth, room.min(40)) {
            self.entry(place, counts).map_err(|difference| format!("call stack place {place}: {difference}"))?;
        }
        Ok(())
    }

    fn source(&self, index: u32, counts: &mut Counts) -> Checked {
        let world = &self.answered;
        let out = self.engine.source(world.operator_count, world.text(), world.operators.lent(), index);
        same("the answer", out, Model.source(world.operator_count, world.text(), world.operators.lent(), index))?;
        let rust = self.rust.as_ref().and_then(|rust| rust.source_answer(index));
        counts.said(if rust.is_some() { Said::All } else { Said::Nothing });
        rust.map_or(Ok(()), |rust| same_as_rust("the range", out, rust))
    }

    fn entry(&self, place: usize, counts: &mut Counts) -> Checked {
        let world = &self.answered;
        let out = self.engine.call_stack(world.state.call_depth, world.call_stack.lent(), place);
        same("the answer", out, Model.call_stack(world.state.call_depth, world.call_stack.lent(), place))?;
        let rust = self.rust.as_ref().and_then(|rust| rust.entry_answer(place));
        counts.said(if rust.is_some() { Said::All } else { Said::Nothing });
        rust.map_or(Ok(()), |rust| same_as_rust("the entry", out, rust))
    }
}

/// The places below a count, up to a bound, and some that are not there.
fn places(count: usize, bound: usize) -> impl Iterator<Item = usize> {
    (0..count.min(bound)).chain([count, count.wrapping_add(1), usize::MAX])
}
