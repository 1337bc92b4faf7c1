//! Cases that run a script: every word on edge values, all short scripts over a vocabulary, random ones, loops.

use crate::case::{Action, Case};
use crate::random::{EDGES, Random};
use model::{Call, WORDS};

const EDGE_COUNT: u64 = EDGES.len() as u64;
const GRID: u64 = 1 + EDGE_COUNT + EDGE_COUNT.pow(2) + EDGE_COUNT.pow(3);

pub const WORDS_ON_EDGES: u64 = WORDS.len() as u64 * GRID;

/// A word on none to three operands that the host pushed, then one step more.
pub fn word_on_edges(_: &mut Random, number: u64) -> Case {
    let word = WORDS[(number / GRID) as usize];
    let (mut rest, mut depth) = (number % GRID, 0);
    while rest >= EDGE_COUNT.pow(depth) {
        rest -= EDGE_COUNT.pow(depth);
        depth += 1;
    }
    let operands = (0..depth).map(|place| EDGES[(rest / EDGE_COUNT.pow(place) % EDGE_COUNT) as usize]);
    let pushes = operands.map(|word| Call::Push { word });
    let calls: Vec<Call> = pushes.chain([Call::Step, Call::Step, Call::Clear, Call::Step]).collect();
    Case::calls(word, &calls)
}

const VOCABULARY: [&str; 46] = [
    "*", "+", "-", "/", "<", "<=", "=", ">", ">=", "and", "or", "xor", "count_ones", "leading_zeros", "trailing_zeros",
    "rotate_left", "rotate_right", "shift_left", "shift_right", "copy", "drop", "jump", "jump_if", "call", "call_either", "return",
    "assert", "yield", "read", "write", "0", "1", "2", "3", "-1", "0x80000000", "4294967295", "a:", "-7", "b:", "@a", "@b", "@",
    ":", "word", "#\n",
];
const SIZE: u64 = VOCABULARY.len() as u64;

pub const SHORT_SCRIPTS: u64 = 1 + SIZE + SIZE.pow(2) + SIZE.pow(3);

/// Every list of up to three tokens, run with a clear after each effect.
pub fn short_script(_: &mut Random, number: u64) -> Case {
    let (mut rest, mut length) = (number, 0);
    while rest >= SIZE.pow(length) {
        rest -= SIZE.pow(length);
        length += 1;
    }
    let tokens: Vec<&str> = (0..length).map(|place| VOCABULARY[(rest / SIZE.pow(place) % SIZE) as usize]).collect();
    Case::calls(tokens.join(" "), &[RUN_20, Call::Clear, RUN_20, Call::Clear, RUN_20, RUN_20, Call::Step])
}

const RUN_20: Call = Call::Run { budget: 20 };

/// A script with loops, calls, duplicate and missing labels, run on past its effects.
pub fn random_script(random: &mut Random, _: u64) -> Case {
    let mut actions = Vec::new();
    for _ in 0..2 + random.below(8) {
        let budget = 1 + random.below(60) as u32;
        actions.push(Action::Call(Call::Run { budget }));
        actions.push(Action::Call(if random.one_in(6) { Call::Step } else { Call::Clear }));
    }
    let mut case = Case::new(script(random), actions);
    case.fill = random.word() as u32;
    case
}

/// A script that keeps a rough account of its operands, so that most of its words find some.
pub fn script(random: &mut Random) -> String {
    let labels = ["a", "b", "loop", "é", ""];
    let mut text = String::new();
    let mut depth = 0usize;
    for _ in 0..1 + random.below(24) {
        match random.below(12) {
            0 => text.push_str(&format!("{}:", random.of(&labels))),
            1 | 2 => {
                text.push_str(&format!("@{}", random.of(&labels)));
                depth += 1;
            }
            3..=6 => {
                text.push_str(&integer(random));
                depth += 1;
            }
            7 => text.push_str(random.of(&["# note\n", "unknown", "#x", "+1", "Yield"])),
            _ => depth = word(&mut text, depth, random),
        }
        text.push_str(random.of(&[" ", " ", " ", "\n", "\u{A0}", "\u{2003}"]));
    }
    text
}

fn integer(random: &mut Random) -> String {
    let value = random.u32();
    match random.below(5) {
        0 => format!("0x{value:x}"),
        1 => format!("{value}"),
        2 => format!("+{}", value >> 1),
        _ => format!("{}", value as i32),
    }
}

fn word(text: &mut String, depth: usize, random: &mut Random) -> usize {
    let word = WORDS[random.below(WORDS.len())];
    let (takes, leaves) = match word {
        "/" => (2, 2),
        "yield" | "return" => (0, 0),
        "count_ones" | "leading_zeros" | "trailing_zeros" | "read" | "copy" => (1, 1),
        "jump" | "call" | "assert" => (1, 0),
        "drop" | "jump_if" | "write" => (2, 0),
        "call_either" => (3, 0),
        _ => (2, 1),
    };
    if depth < takes && !random.one_in(8) {
        return depth;
    }
    text.push_str(word);
    depth.saturating_sub(takes) + leaves
}

/// Loops that do some work, to their end or to a budget's.
pub fn looping(random: &mut Random, _: u64) -> Case {
    let text = loop_text(random);
    let budget = [100, 400, 4_000][random.below(3)] - random.below(60) as u32;
    let run = Call::Run { budget };
    let mut case = Case::calls(text, &[run, run, Call::Clear, run]);
    case.fill = random.word() as u32;
    case
}

pub fn loop_text(random: &mut Random) -> String {
    let (count, name) = (1 + random.below(40), random.of(&["loop", "l", "é", "again"]));
    let work = work(random);
    match random.below(6) {
        0 => format!("{count} {name}: {work} 1 - 0 copy @{name} jump_if"),
        1 => format!("{count} {name}: @f call 1 - 0 copy @{name} jump_if return # done\nf: {work} return"),
        2 => format!(
            "{count} {name}: 0 copy 2 / 1 drop @odd @even call_either 1 - 0 copy @{name} jump_if yield\nodd: {work} return even: return"
        ),
        3 => format!("0 {name}: 0 copy 16 < assert 0 copy 0 copy 3 * write {work} 1 + @{name} jump"),
        4 => format!("{count} @down call yield down: 0 copy @go jump_if return go: 1 - {work} @down call return"),
        _ => format!("1 1 {count} {name}: 2 copy 2 copy + 3 copy 4 drop 3 drop 1 copy 2 drop 1 - 0 copy @{name} jump_if"),
    }
}

const UNARY: [&str; 3] = ["count_ones", "leading_zeros", "trailing_zeros"];

/// Some words that leave the operands as they find them.
fn work(random: &mut Random) -> String {
    let mut text = String::new();
    for _ in 0..random.below(4) {
        let (a, b) = (integer(random), integer(random));
        let binary = WORDS[random.below(19)];
        match random.below(4) {
            0 => text.push_str(&format!("{a} {} read write ", random.below(18))),
            1 => text.push_str(&format!("{} {a} write {} read 0 drop ", random.below(17), random.below(17))),
            _ if binary == "/" => text.push_str(&format!("{a} {b} / 0 drop 0 drop ")),
            _ if UNARY.contains(&binary) => text.push_str(&format!("{a} {binary} 0 drop ")),
            _ => text.push_str(&format!("{a} {b} {binary} 0 drop ")),
        }
    }
    text
}
