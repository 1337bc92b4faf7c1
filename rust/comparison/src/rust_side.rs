//! The Rust beside an engine: it is led through the same calls, and says where its answers or its state differ.

use crate::world::{Stacks, World};
use model::Call;
use oracle::script::{Label, Operator};
use oracle::{EFFECTS, Effect, Eval, OperatorIndex, Script, eval, number, script};
use std::rc::Rc;

pub struct RustSide {
    script: Rc<Script>,
    /// The script came from the text, so that it has source ranges; else from tables that a host forged.
    is_compiled: bool,
    eval: Eval,
}

/// What the Rust could say about an answer.
#[derive(Clone, Copy, Debug, PartialEq)]
pub enum Said {
    /// The answer is the Rust's own.
    All,
    /// The answer is a refusal by size or budget: the Rust made the steps that it counts, none with an effect, its state after
    /// them is the same, and the size is exceeded where it goes on.
    Limit,
    /// Nothing: the Rust has no such refusal.
    Nothing,
}

/// What the Rust said, and the greatest depths of its stacks meanwhile.
pub struct Followed {
    pub said: Said,
    pub operands_reached: usize,
    pub calls_reached: usize,
}

type Checked<T = ()> = Result<T, String>;

fn same<T: PartialEq + std::fmt::Debug>(what: &str, engine: T, rust: T) -> Checked {
    if engine == rust { Ok(()) } else { Err(format!("{what}: {engine:?}, the Rust has {rust:?}")) }
}

impl RustSide {
    /// The Rust with a script that it compiled, and a fresh state.
    pub fn fresh(script: Rc<Script>, memory: usize) -> RustSide {
        let eval = eval::peek::made(0, &[], &[], None, &vec![0; memory]);
        RustSide { script, is_compiled: true, eval }
    }

    /// The Rust in the state that is lent, if it can be in it: nothing over capacity, no record damaged, names in UTF-8.
    /// Where text and tables are still as compile left them, its script is the compiled one.
    pub fn viewed(world: &World, compiled: Option<Rc<Script>>) -> Option<RustSide> {
        let state = world.state;
        let operands = world.operand_stack.lent().get(..state.operand_depth)?;
        let calls = world.call_stack.lent().get(..state.call_depth)?;
        let effect = match state.effect {
            0 => None,
            number => Some((*EFFECTS.get(number as usize - 1)?, state.effect_operator)),
        };
        let eval = eval::peek::made(state.next_operator, operands, calls, effect, world.memory.lent());
        let is_compiled = compiled.is_some();
        let script = compiled.or_else(|| viewed_script(world).map(Rc::new))?;
        Some(RustSide { script, is_compiled, eval })
    }

    pub fn counts(&self) -> (usize, usize) {
        (script::peek::operators(&self.script).len(), script::peek::labels(&self.script).len())
    }

    /// The records at the front of both tables, against what the Rust holds.
    pub fn check_records(&self, world: &World) -> Checked {
        let text = world.text();
        let operators = script::peek::operators(&self.script);
        for (index, record) in (0u32..).zip(world.operators.lent().chunks_exact(4)).take(operators.len()) {
            let source = self.source(index).expect("each operator has a range");
            let (kind, value, name) = match &operators[index as usize] {
                Operator::Identifier { value } => (0, 0, Some((source.0, value))),
                Operator::Integer { value } => (1, *value as u32, None),
                Operator::Reference { name } => (2, 0, Some((source.0 + 1, name))),
            };
            same("an operator's record", record, &[kind, source.0, source.1, value])?;
            if let Some((start, name)) = name {
                same("an operator's name", &text[start as usize..source.1 as usize], name.as_bytes())?;
            }
        }
        let labels = script::peek::labels(&self.script);
        for (record, label) in world.labels.lent().chunks_exact(3).zip(labels) {
            let name = text.get(record[0] as usize..record[1] as usize);
            same("a label's name", name, Some(label.name.as_bytes()))?;
            same("a label's operator", record[2].to_string(), label.operator.to_string())?;
        }
        Ok(())
    }

    fn source(&self, index: u32) -> Option<(u32, u32)> {
        let range = self.script.map_operator_to_source(&script::peek::index(index)).ok()?;
        Some((range.start as u32, range.end as u32))
    }

    /// The source of an operator as the boundary answers it, where there is a source map.
    pub fn source_answer(&self, index: u32) -> Option<[u64; 5]> {
        self.is_compiled.then(|| match self.source(index) {
            Some((start, end)) => [0, 0, 0, start.into(), end.into()],
            None => [31, index.into(), 0, 0, 0],
        })
    }

    /// The call stack's entry at a place as the boundary answers it; none where the Rust panics on an entry 0.
    pub fn entry_answer(&self, place: usize) -> Option<[u64; 3]> {
        let entries: Vec<u32> = eval::peek::calls(&self.eval).collect();
        if entries.iter().rev().take(place.saturating_add(1)).any(|&entry| entry == 0) {
            return None;
        }
        Some(match self.eval.call_stack().nth(place) {
            Some(index) => [0, shown(index), 0],
            None => [31, place as u64, 0],
        })
    }

    /// Makes a call that the engine answered by `out`, and compares the answer.
    pub fn follow(&mut self, call: Call, out: &[u64; 8], world: &World) -> Checked<Followed> {
        let mut followed = Followed {
            said: Said::All,
            operands_reached: self.eval.operand_stack.values.len(),
            calls_reached: eval::peek::call_depth(&self.eval),
        };
        match call {
            Call::Step => self.follow_steps(1, out, world, &mut followed)?,
            Call::Run { budget } => self.follow_steps(budget, out, world, &mut followed)?,
            Call::Push { .. } if out[0] == 27 => {
                followed.said = Said::Limit;
                same("27 at depth", self.eval.operand_stack.values.len(), world.operand_stack.lent().len())?;
            }
            _ => same("the answer", [out[0], out[1], out[2]], self.answer(call))?,
        }
        followed.reach(&self.eval);
        Ok(followed)
    }

    /// Number, value and steps that the Rust itself answers to a call; none for a run that no effect ends within its budget.
    pub fn perform(&mut self, call: Call) -> Option<[u64; 3]> {
        let budget = match call {
            Call::Step => return Some(effect_words(self.eval.step(&self.script), 1)),
            Call::Run { budget } => budget,
            other => return Some(self.answer(other)),
        };
        let mut steps = (1..=budget.into()).map(|made| (self.eval.step(&self.script), made));
        let (effect, made) = steps.find(|(effect, _)| effect.is_some())?;
        Some(effect_words(effect, made))
    }

    pub fn depths(&self) -> [usize; 2] {
        [self.eval.operand_stack.values.len(), eval::peek::call_depth(&self.eval)]
    }

    /// The five numbers of the state.
    pub fn state_words(&self) -> [u32; 5] {
        let [operands, calls] = self.depths().map(|depth| depth as u32);
        let (effect, operator) = eval::peek::effect(&self.eval).map_or((0, 0), |(effect, at)| (number(effect), at));
        [eval::peek::next(&self.eval), operands, calls, effect, operator]
    }

    /// Operand stack, call stack and memory.
    pub fn live_words(&self) -> Vec<u32> {
        let stacks = self.eval.operand_stack.to_u32_slice().iter().copied().chain(eval::peek::calls(&self.eval));
        stacks.chain(self.eval.memory.to_u32_slice().iter().copied()).collect()
    }

    fn answer(&mut self, call: Call) -> [u64; 3] {
        match call {
            Call::Clear => effect_words(self.eval.clear_effect(), 0),
            Call::Push { word } => {
                self.eval.operand_stack.push(word);
                [0, 0, 0]
            }
            Call::Pop => self.eval.operand_stack.pop().map_or([30, 0, 0], |word| [0, word.to_u32().into(), 0]),
            Call::Read { address } => {
                let word = self.eval.memory.read(address);
                word.map_or([31, address.into(), 0], |word| [0, word.to_u32().into(), 0])
            }
            Call::Write { address, word } => {
                let written = self.eval.memory.write(address, word.into());
                written.map_or([31, address.into(), 0], |()| [0, 0, 0])
            }
            Call::Step | Call::Run { .. } => unreachable!("steps are followed one by one"),
        }
    }

    /// Makes the steps that the engine counted. Where they ended in an effect, `Eval::run` has to come to the same.
    fn follow_steps(&mut self, budget: u32, out: &[u64; 8], world: &World, followed: &mut Followed) -> Checked {
        let before = (1..=11).contains(&out[0]).then(|| eval::peek::copy(&self.eval));
        let mut ended = None;
        for made in 1..=out[2] {
            ended = self.eval.step(&self.script);
            followed.reach(&self.eval);
            if ended.is_some() {
                same("steps", out[2], made)?;
            }
        }
        if out[0] <= 11 {
            same("the answer", [out[0], out[1], out[2]], effect_words(ended, out[2]))?;
            return before.map_or(Ok(()), |copy| self.check_run(copy, ended));
        }
        followed.said = Said::Limit;
        same("an effect", ended.map(|(effect, _)| effect), None)?;
        self.check_limit(budget, out, world)
    }

    fn check_run(&self, mut copy: Eval, ended: Option<(Effect, OperatorIndex)>) -> Checked {
        same("Eval::run beside Eval::step", Some(copy.run(&self.script)), ended)?;
        let state = |eval: &Eval| {
            let calls: Vec<u32> = eval::peek::calls(eval).collect();
            (eval::peek::next(eval), eval.operand_stack.values.clone(), calls, eval.memory.values.clone())
        };
        same("the state after Eval::run", state(&copy), state(&self.eval))
    }

    /// A limit is met exactly where the Rust would go on beyond the size.
    fn check_limit(&self, budget: u32, out: &[u64; 8], world: &World) -> Checked {
        let mut copy = eval::peek::copy(&self.eval);
        let exceeded = match out[0] {
            29 => out[2] == budget.into() && out[1] == eval::peek::next(&self.eval).into(),
            27 => {
                copy.step(&self.script);
                copy.operand_stack.values.len() > world.operand_stack.lent().len()
            }
            28 => {
                copy.step(&self.script);
                eval::peek::call_depth(&copy) > world.call_stack.lent().len()
            }
            _ => false,
        };
        same("a limit", exceeded, true)
    }

    /// The state and the memory.
    pub fn check_state(&self, world: &World) -> Checked {
        let state = world.state;
        same("next", state.next_operator, eval::peek::next(&self.eval))?;
        same("the depths", [state.operand_depth, state.call_depth], self.depths())?;
        let effect = (state.effect != 0).then_some((state.effect, state.effect_operator));
        let standing = eval::peek::effect(&self.eval).map(|(effect, operator)| (number(effect), operator));
        same("the standing effect", effect, standing)?;
        same("the memory", world.memory.lent(), self.eval.memory.to_u32_slice())
    }

    /// Every word of both stacks' buffers.
    pub fn check_stacks(&self, world: &World, before: Stacks, followed: &Followed) -> Checked {
        let operands = left(before.operands, self.eval.operand_stack.to_u32_slice(), followed.operands_reached);
        same("the operand stack", world.operand_stack.lent(), &operands)?;
        let entries: Vec<u32> = eval::peek::calls(&self.eval).collect();
        same("the call stack", world.call_stack.lent(), &left(before.calls, &entries, followed.calls_reached))
    }
}

/// What a call has to leave in a stack's buffer: the Rust's words, then zeros up to the greatest depth that the Rust reached in
/// the call, then what stood there before.
fn left(mut buffer: Vec<u32>, live: &[u32], reached: usize) -> Vec<u32> {
    buffer[..reached].fill(0);
    buffer[..live.len()].copy_from_slice(live);
    buffer
}

impl Followed {
    fn reach(&mut self, eval: &Eval) {
        self.operands_reached = self.operands_reached.max(eval.operand_stack.values.len());
        self.calls_reached = self.calls_reached.max(eval::peek::call_depth(eval));
    }
}

fn shown(index: OperatorIndex) -> u64 {
    index.to_string().parse().expect("an index is shown as a number")
}

fn effect_words(effect: Option<(Effect, OperatorIndex)>, steps: u64) -> [u64; 3] {
    effect.map_or([0, 0, steps], |(effect, operator)| [number(effect).into(), shown(operator), steps])
}

/// The Rust's script with the operators and labels that stand in the tables.
fn viewed_script(world: &World) -> Option<Script> {
    let text = world.text();
    let operators = world.operators.lent().get(..4 * world.operator_count.min(1 << 20))?;
    let operators = operators.chunks_exact(4).map(|record| operator(record, text)).collect::<Option<_>>()?;
    let labels = world.labels.lent().get(..3 * world.label_count.min(1 << 20))?;
    let labels = labels.chunks_exact(3).map(|record| label(record, text)).collect::<Option<_>>()?;
    Some(script::peek::made(operators, labels))
}

fn operator(record: &[u32], text: &[u8]) -> Option<Operator> {
    let source = text.get(record[1] as usize..record[2] as usize).filter(|source| !source.is_empty())?;
    Some(match record[0] {
        0 => Operator::Identifier { value: name(source)? },
        1 => Operator::Integer { value: record[3] as i32 },
        2 => Operator::Reference { name: name(&source[1..])? },
        _ => return None,
    })
}

fn label(record: &[u32], text: &[u8]) -> Option<Label> {
    let name = name(text.get(record[0] as usize..record[1] as usize)?)?;
    Some(Label { name, operator: script::peek::index(record[2]) })
}

fn name(bytes: &[u8]) -> Option<String> {
    String::from_utf8(bytes.to_vec()).ok()
}

#[cfg(test)]
mod tests {
    use super::*;
    use crate::case::Case;
    use model::{Engine, Model, State};

    fn started(text: &str) -> World {
        let mut world = World::new(&Case::new(text, Vec::new()));
        let (text, operators, labels) = world.tables();
        let out = Model.compile(text, operators, labels);
        (world.operator_count, world.label_count) = (out[2] as usize, out[3] as usize);
        world.state = State::from_words(Model.fresh(world.memory.lent_mut()));
        world
    }

    const TEXTS: [&str; 6] =
        ["1 2 3", "1 +", "7 0 /", "7 8 6 1 drop", "@a call yield a: return", "1 @a @b call_either a: b: return"];
    const STACKS: [fn(&mut World) -> &mut [u32]; 2] = [|world| world.operand_stack.lent_mut(), |world| world.call_stack.lent_mut()];

    /// The Rust alone tells each word of both buffers from any other.
    #[test]
    fn no_word_of_a_stack_is_left_open() {
        for text in TEXTS {
            let mut world = started(text);
            let mut rust = RustSide::fresh(Rc::new(Script::compile(text)), world.memory.lent().len());
            let (call, before) = (Call::Run { budget: 20 }, world.stacks());
            let out = Model.call(call, &mut world.lent());
            world.state = State::answered(&out);
            let followed = rust.follow(call, &out, &world).unwrap();
            let agrees = |world: &World| rust.check_stacks(world, before.clone(), &followed).is_ok();
            assert!(agrees(&world), "{text}");
            for stack in STACKS {
                for at in 0..stack(&mut world).len() {
                    stack(&mut world)[at] ^= 1;
                    assert!(!agrees(&world), "{text}, word {at}");
                    stack(&mut world)[at] ^= 1;
                }
            }
        }
    }
}
