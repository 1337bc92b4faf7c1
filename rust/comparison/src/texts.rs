//! Cases that are mostly about compile: short texts, characters, damaged sequences, numbers, tables around their limits.

use crate::case::{Action, Case};
use crate::random::Random;
use model::Call;

const RUN: [Action; 1] = [Action::Call(Call::Run { budget: 8 })];

const LETTERS: &[u8] = b" \n\r#:@019xX+-aFg";
const BYTES: &[u8] = b" \n#:1a\xC2\xA0\x85\xE2\x80\x8B";
const LONGEST: u32 = 5;

/// How many texts up to a length an alphabet has.
const fn texts_over(alphabet: &[u8]) -> u64 {
    let mut count = 0;
    let mut length = 0;
    while length <= LONGEST {
        count += (alphabet.len() as u64).pow(length);
        length += 1;
    }
    count
}

pub const SHORT_TEXTS: u64 = texts_over(LETTERS);
pub const SHORT_BYTES: u64 = texts_over(BYTES);

pub fn short_text(_: &mut Random, number: u64) -> Case {
    Case::new(nth_text(LETTERS, number), RUN.to_vec())
}

pub fn short_bytes(_: &mut Random, number: u64) -> Case {
    Case { fill: number as u32, ..Case::new(nth_text(BYTES, number), RUN.to_vec()) }
}

fn nth_text(alphabet: &[u8], number: u64) -> Vec<u8> {
    let base = alphabet.len() as u64;
    let (mut rest, mut length) = (number, 0);
    while rest >= base.pow(length) {
        rest -= base.pow(length);
        length += 1;
    }
    (0..length).map(|place| alphabet[(rest / base.pow(place) % base) as usize]).collect()
}

pub const SCALARS: u64 = 0x11_0000 - 0x800;

/// A scalar value between tokens, in a comment, as a name and in a name.
pub fn scalar(_: &mut Random, number: u64) -> Case {
    let number = number as u32;
    let scalar = char::from_u32(if number < 0xD800 { number } else { number + 0x800 }).expect("surrogates are left out");
    Case::new(format!("1{scalar}2 #{scalar}3\n{scalar}: @{scalar} a{scalar}{scalar}b"), RUN.to_vec())
}

/// Bytes at which the rows of table 3-7 turn.
const TURNS: [u8; 10] = [0x00, 0x41, 0x7F, 0x80, 0x8F, 0x90, 0x9F, 0xA0, 0xBF, 0xC0];
const AROUND: [(&[u8], &[u8]); 5] = [(b"", b""), (b"1 ", b""), (b"a", b"b"), (b"#", b"\n2"), (b"\xC3\xA9:", b"\x80")];
const PAIRS: u64 = 256 * 257;
const TRIPLES: u64 = 16 * 256 * 10;
const QUADRUPLES: u64 = 8 * 256 * 100;

pub const SEQUENCES: u64 = (PAIRS + TRIPLES + QUADRUPLES) * AROUND.len() as u64;

/// Every sequence of one and two bytes, and those of three and four with edges in the later places.
pub fn sequence(_: &mut Random, number: u64) -> Case {
    let (before, after) = AROUND[(number % AROUND.len() as u64) as usize];
    let place = number / AROUND.len() as u64;
    let text = [before, &nth_sequence(place), after].concat();
    Case { fill: number as u32, ..Case::new(text, RUN.to_vec()) }
}

fn nth_sequence(place: u64) -> Vec<u8> {
    let turn = |number: u64| TURNS[(number % 10) as usize];
    if place < 256 {
        return vec![place as u8];
    }
    if place < PAIRS {
        return vec![(place / 256 - 1) as u8, place as u8];
    }
    let rest = place - PAIRS;
    if rest < TRIPLES {
        return vec![0xE0 + (rest / 2560) as u8, (rest / 10) as u8, turn(rest)];
    }
    let rest = rest - TRIPLES;
    vec![0xF0 + (rest / 25_600) as u8, (rest / 100) as u8, turn(rest / 10), turn(rest)]
}

const SIGNS: [&str; 7] = ["", "+", "-", "++", "--", "+-", "-+"];
const PREFIXES: [&str; 6] = ["", "0x", "0X", "x", "00x", "-0x"];
const ZEROS: [&str; 3] = ["", "0", "00000000000000000000"];
const SUFFIXES: [&str; 7] = ["", ":", "g", "_", ".", "\u{660}", "0"];
const MAGNITUDES: [u128; 22] = [
    0, 1, 7, 9, 10, 11, 15, 16, 255, 0x7FFF_FFFE, 0x7FFF_FFFF, 0x8000_0000, 0x8000_0001, 0xFFFF_FFFE, 0xFFFF_FFFF, 0x1_0000_0000,
    0x1_0000_0001, 0x1_8000_0000, 0x7FFF_FFFF_FFFF_FFFF, 0xFFFF_FFFF_FFFF_FFFF, 0x1_0000_0000_0000_0000, 0xABCD_EF01_2345,
];
const FORMS: u64 = 4;

pub const NUMBERS: u64 = (SIGNS.len() * PREFIXES.len() * ZEROS.len() * SUFFIXES.len() * MAGNITUDES.len()) as u64 * FORMS;

/// Signs, prefixes, leading zeros and magnitudes around every limit, in both bases and cases.
pub fn number(_: &mut Random, number: u64) -> Case {
    let mut rest = number as usize;
    let mut digit = |base: usize| {
        let digit = rest % base;
        rest /= base;
        digit
    };
    let (sign, prefix) = (SIGNS[digit(SIGNS.len())], PREFIXES[digit(PREFIXES.len())]);
    let (zeros, suffix) = (ZEROS[digit(ZEROS.len())], SUFFIXES[digit(SUFFIXES.len())]);
    let magnitude = MAGNITUDES[digit(MAGNITUDES.len())];
    let written = match digit(FORMS as usize) {
        0 => format!("{magnitude}"),
        1 => format!("{magnitude:x}"),
        2 => format!("{magnitude:X}"),
        _ => String::new(),
    };
    Case::new(format!("{prefix}{sign}{zeros}{written}{suffix}"), RUN.to_vec())
}

const PIECES: [&str; 26] = [
    "#", "# note\n", ":", "@", "0x", "0X", "+", "-", "1", "12", "4294967295", "-2147483648", "2147483648", "ff", "a", "é", "日本",
    "🏌", "yield", "loop:", "@loop", "jump_if", "count_ones", "::", "@:", "0x80000000",
];

/// Every white space character, then some that look like one or stand beside one.
const SPACES: [&str; 42] = [
    "\t", "\n", "\u{B}", "\u{C}", "\r", " ", "\u{85}", "\u{A0}", "\u{1680}", "\u{2000}", "\u{2001}", "\u{2002}", "\u{2003}",
    "\u{2004}", "\u{2005}", "\u{2006}", "\u{2007}", "\u{2008}", "\u{2009}", "\u{200A}", "\u{2028}", "\u{2029}", "\u{202F}",
    "\u{205F}", "\u{3000}", "\u{8}", "\u{E}", "\u{1F}", "\u{84}", "\u{86}", "\u{9F}", "\u{A1}", "\u{180E}", "\u{1FFF}", "\u{200B}",
    "\u{200D}", "\u{2027}", "\u{202E}", "\u{2060}", "\u{2FFF}", "\u{3001}", "\u{FEFF}",
];

fn piece(random: &mut Random) -> &'static str {
    match random.below(6) {
        0 | 1 => random.of(&SPACES),
        2 => " ",
        _ => random.of(&PIECES),
    }
}

/// Pieces of tokens, comments and white space thrown together, with tables around what the text needs.
pub fn random_text(random: &mut Random, _: u64) -> Case {
    let count = random.below(30);
    let mut text: Vec<u8> = (0..count).flat_map(|_| piece(random).bytes()).collect();
    if random.one_in(5) && !text.is_empty() {
        let at = random.below(text.len());
        text[at] = random.word() as u8;
    }
    let mut case = Case::new(text, RUN.to_vec());
    fit_tables(&mut case, random);
    case
}

/// Tables with no room, just too little, just enough, or a word or record more.
pub fn fit_tables(case: &mut Case, random: &mut Random) {
    let text = String::from_utf8_lossy(&case.text);
    let tokens: Vec<&str> = text.split_whitespace().collect();
    let labels = tokens.iter().filter(|token| token.ends_with(':')).count();
    let around = |needed: usize, random: &mut Random| match random.below(4) {
        0 => needed + 64,
        1 => random.below(needed + 1),
        _ => (needed + random.below(7)).saturating_sub(4),
    };
    case.sizes.operators = around(4 * (tokens.len() - labels), random);
    case.sizes.labels = around(3 * labels, random);
    case.fill = random.word() as u32;
}

/// Texts of about 65,535 bytes, in pieces of one kind or mixed, with tables around what they need.
pub fn long_text(random: &mut Random, number: u64) -> Case {
    let length = [65_535, 65_534, 65_536, 65_535, 70_000, 40_000][number as usize % 6];
    let one = random.of(&["1 ", "a: ", "日 ", "#\n", "@a ", "-7 ", "x", "#", "é", "\u{2003}", "🏌 "]);
    let is_mixed = random.one_in(2);
    let mut text = Vec::with_capacity(length + 16);
    while text.len() < length {
        let piece = if is_mixed { piece(random) } else { one };
        text.extend_from_slice(piece.as_bytes());
    }
    let end = (0..4).map(|back| length - back).find(|&end| std::str::from_utf8(&text[..end]).is_ok()).unwrap_or(length);
    text.truncate(if random.one_in(8) { length } else { end });
    text.resize(length, b' ');
    if random.one_in(8) {
        *text.last_mut().expect("it is long") = 0xC2;
    }
    let mut case = Case::new(text, RUN.to_vec());
    fit_tables(&mut case, random);
    case
}
