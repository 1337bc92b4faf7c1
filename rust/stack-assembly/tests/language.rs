//! Every example of docs/LANGUAGE.md leaves what the document says; and every word, effect and limit has one.

use stack_assembly::{Eval, Script, Sizes};
use std::collections::BTreeSet;
use std::fs;
use std::path::Path;

/// What the host lends to the examples of a block: tally's sizes, but for those that the block's first line names.
#[derive(Clone, Copy)]
struct Lends {
    operators: usize,
    labels: usize,
    sizes: Sizes,
    budget: u32,
}

impl Lends {
    fn named(words: &str) -> Lends {
        let mut lends = Lends { operators: 4096, labels: 1024, sizes: Sizes::default(), budget: 1_000_000 };
        for word in words.split_whitespace() {
            let (name, number) = word.split_once('=').expect(word);
            let number = number.parse().expect(word);
            match name {
                "operators" => lends.operators = number,
                "labels" => lends.labels = number,
                "operand_stack" => lends.sizes.operand_stack = number,
                "call_stack" => lends.sizes.call_stack = number,
                "memory" => lends.sizes.memory = number,
                "budget" => lends.budget = number as u32,
                _ => panic!("{word} is no size"),
            }
        }
        lends
    }
}

struct Example {
    line: usize,
    text: Vec<u8>,
    lends: Lends,
    /// What each run answers and leaves; the effect is taken away before the next one.
    runs: Vec<String>,
}

fn repository(name: &str) -> String {
    let path = Path::new(env!("CARGO_MANIFEST_DIR")).join("../..").join(name);
    fs::read_to_string(&path).unwrap_or_else(|error| panic!("{}: {error}", path.display()))
}

fn examples() -> Vec<Example> {
    let document = repository("docs/LANGUAGE.md");
    let mut examples = Vec::new();
    let mut block = None;
    for (line, written) in (1..).zip(document.lines()) {
        if let Some(words) = written.strip_prefix("```stack") {
            block = Some(Lends::named(words));
        } else if written.starts_with("```") {
            block = None;
        } else if let Some(lends) = block {
            let (script, runs) = written.split_once("-->").unwrap_or_else(|| panic!("line {line} is no example"));
            let runs = runs.split("then").map(|run| run.split_whitespace().collect::<Vec<_>>().join(" ")).collect();
            examples.push(Example { line, text: bytes(script.trim_end()), lends, runs });
        }
    }
    examples
}

/// The bytes of a script in the document's notation.
fn bytes(script: &str) -> Vec<u8> {
    let mut parts = script.split('\\');
    let mut bytes = parts.next().unwrap().as_bytes().to_vec();
    for part in parts {
        let rest = if let Some(arguments) = part.strip_prefix("repeat") {
            let (times, rest) = braced(arguments);
            let (text, rest) = braced(rest);
            bytes.extend(text.repeat(times.parse().expect(part)).bytes());
            rest
        } else if let Some(argument) = part.strip_prefix('u') {
            let (number, rest) = braced(argument);
            let scalar = char::from_u32(u32::from_str_radix(number, 16).expect(part)).expect(part);
            bytes.extend(scalar.to_string().bytes());
            rest
        } else if let Some(digits) = part.strip_prefix('x') {
            bytes.push(u8::from_str_radix(&digits[..2], 16).expect(part));
            &digits[2..]
        } else {
            let place = "nrt".find(&part[..1]).unwrap_or_else(|| panic!("\\{part}"));
            bytes.push(b"\n\r\t"[place]);
            &part[1..]
        };
        bytes.extend(rest.bytes());
    }
    bytes
}

/// What stands in braces, and what follows them.
fn braced(text: &str) -> (&str, &str) {
    text.strip_prefix('{').and_then(|text| text.split_once('}')).unwrap_or_else(|| panic!("{text} has no braces"))
}

/// What so many runs of a script answer and leave, as the document writes it.
fn ran(text: &[u8], lends: Lends, runs: usize) -> Vec<String> {
    let script = match Script::compile_within(text, lends.operators, lends.labels) {
        Ok(script) => script,
        Err(refusal) => return vec![format!("{} {} 0 |", refusal.number(), refusal.value())],
    };
    let mut eval = Eval::with_sizes(lends.sizes);
    let mut run = |_| {
        eval.clear_effect();
        let (number, value, steps) = match eval.run(&script, lends.budget) {
            Ok(ran) => (ran.effect.number(), ran.operator.value().into(), ran.steps),
            Err(stopped) => (stopped.refusal.number(), stopped.refusal.value(), stopped.steps),
        };
        let operands: String = eval.operand_stack().to_i32_slice().iter().map(|word| format!(" {word}")).collect();
        format!("{number} {value} {steps} |{operands}")
    };
    (0..runs).map(&mut run).collect()
}

#[test]
fn every_example() {
    let examples = examples();
    assert!(!examples.is_empty(), "the document has no example");
    for Example { line, text, lends, runs } in examples {
        assert_eq!(ran(&text, lends, runs.len()), runs, "docs/LANGUAGE.md, line {line}");
    }
}

#[test]
fn every_word() {
    let definition = repository("crates/words/specs/Words.antt");
    let words: Vec<&str> = definition.split("row \"").skip(1).map(|row| row.split('"').next().unwrap()).collect();
    assert!(!words.is_empty(), "the definition has no word");
    let texts: Vec<Vec<u8>> = examples().into_iter().map(|example| example.text).collect();
    for word in words {
        let has_it = |text: &Vec<u8>| text.split(u8::is_ascii_whitespace).any(|token| token == word.as_bytes());
        assert!(texts.iter().any(has_it), "{word} has no example");
    }
}

#[test]
fn every_effect_and_every_refusal_of_a_script() {
    let shown: BTreeSet<u32> =
        examples().iter().flat_map(|example| &example.runs).map(|run| run.split(' ').next().unwrap().parse().unwrap()).collect();
    for number in (1..=11).chain(21..=24).chain(27..=29) {
        assert!(shown.contains(&number), "{number} has no example");
    }
}
