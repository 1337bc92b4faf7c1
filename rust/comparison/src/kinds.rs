//! The kinds of cases, and how many of each there are.

use crate::case::Case;
use crate::random::Random;
use crate::{lists, scripts, texts};

pub struct Kind {
    pub name: &'static str,
    /// How many cases a full run makes. An exhaustive kind has no more than these.
    pub cases: u64,
    pub is_exhaustive: bool,
    make: fn(&mut Random, u64) -> Case,
}

impl Kind {
    const fn all(name: &'static str, cases: u64, make: fn(&mut Random, u64) -> Case) -> Kind {
        Kind { name, cases, is_exhaustive: true, make }
    }

    const fn random(name: &'static str, cases: u64, make: fn(&mut Random, u64) -> Case) -> Kind {
        Kind { name, cases, is_exhaustive: false, make }
    }

    /// The case with this number. An exhaustive kind is walked in strides, so that a part of it is spread over the whole.
    pub fn case(&self, seed: u64, number: u64) -> Case {
        const STRIDE: u64 = 1_000_000_007;
        let place = if self.is_exhaustive { (number as u128 * STRIDE as u128 % self.cases as u128) as u64 } else { number };
        (self.make)(&mut Random::of_case(seed, number), place)
    }
}

pub const KINDS: [Kind; 13] = [
    Kind::all("short texts", texts::SHORT_TEXTS, texts::short_text),
    Kind::all("short texts of bytes", texts::SHORT_BYTES, texts::short_bytes),
    Kind::all("scalar values", texts::SCALARS, texts::scalar),
    Kind::all("sequences of bytes", texts::SEQUENCES, texts::sequence),
    Kind::all("numbers", texts::NUMBERS, texts::number),
    Kind::all("words on edge values", scripts::WORDS_ON_EDGES, scripts::word_on_edges),
    Kind::all("short scripts", scripts::SHORT_SCRIPTS, scripts::short_script),
    Kind::random("random texts", 300_000, texts::random_text),
    Kind::random("long texts", 600, texts::long_text),
    Kind::random("random scripts", 400_000, scripts::random_script),
    Kind::random("loops", 60_000, scripts::looping),
    Kind::random("lists of calls", 600_000, lists::list),
    Kind::random("forged states", 600_000, lists::forged),
];
