//! The program `tally` as it is defined, done by the Rust and by an engine: what the examples are checked with.

use crate::case::{Case, Sizes};
use crate::world::World;
use model::{Call, Engine, State};
use oracle::{Eval, Script, number};
use std::path::Path;

const SIZES: Sizes = Sizes { operators: 4 * 4096, labels: 3 * 1024, operand_stack: 1024, call_stack: 256, memory: 1024 };
const BUDGET: u32 = 1_000_000;

fn printed(answer: [u64; 3], operands: &[u32]) -> String {
    let [number, value, steps] = answer;
    let operands: String = operands.iter().map(|&word| format!("{}\n", word as i32)).collect();
    format!("{number} {value} {steps}\n{operands}")
}

pub fn by_engine(text: &[u8], engine: &dyn Engine) -> String {
    let mut world = World::new(&Case { sizes: SIZES, ..Case::new(text, Vec::new()) });
    let (text, operators, labels) = world.tables();
    let [number, value, operators, labels] = engine.compile(text, operators, labels);
    if number != 0 {
        return printed([number, value, 0], &[]);
    }
    (world.operator_count, world.label_count) = (operators as usize, labels as usize);
    world.state = State::from_words(engine.fresh(world.memory.lent_mut()));
    let out = engine.call(Call::Run { budget: BUDGET }, &mut world.lent());
    printed([out[0], out[1], out[2]], &world.operand_stack.lent()[..out[4] as usize])
}

/// Where the Rust meets no limit.
pub fn by_rust(text: &str) -> String {
    let script = Script::compile(text);
    let mut eval = Eval::new();
    for made in 1..=BUDGET {
        if let Some((effect, operator)) = eval.step(&script) {
            let operator = operator.to_string().parse().expect("an index is shown as a number");
            return printed([number(effect).into(), operator, made.into()], eval.operand_stack.to_u32_slice());
        }
    }
    "29".into()
}

/// Every script of a folder, by both, against the file beside it that says what tally prints.
pub fn examples(folder: &Path, engine: &dyn Engine) -> bool {
    let mut scripts: Vec<_> = std::fs::read_dir(folder).into_iter().flatten().flatten().map(|entry| entry.path()).collect();
    scripts.retain(|path| path.extension().is_some_and(|extension| extension == "stack"));
    scripts.sort();
    let mut agree = !scripts.is_empty();
    for path in scripts {
        let text = std::fs::read_to_string(&path).unwrap_or_default();
        let expected = std::fs::read_to_string(path.with_extension("tally")).unwrap_or_default();
        let (rust, engine) = (by_rust(&text), by_engine(text.as_bytes(), engine));
        let same = rust == engine && rust == expected;
        agree &= same;
        println!("{}: {}", path.display(), if same { "as expected" } else { "DIFFERS" });
        if !same {
            println!("expected:\n{expected}the Rust:\n{rust}the engine:\n{engine}");
        }
    }
    agree
}
