//! Makes a failing case short: whatever can go while it still fails, goes.

use crate::case::{Action, Case, Sizes};
use model::Call;

const ATTEMPTS: usize = 20_000;

pub fn shrink(case: Case, fails: &dyn Fn(&Case) -> bool) -> Case {
    let mut search = Search { best: case, fails, attempts: 0 };
    loop {
        let before = search.best.clone();
        search.fewer_actions();
        search.plainer_text(b' ');
        search.less_text();
        search.smaller_sizes();
        search.plainer();
        if search.best == before || search.attempts >= ATTEMPTS {
            return search.best;
        }
    }
}

struct Search<'a> {
    best: Case,
    fails: &'a dyn Fn(&Case) -> bool,
    attempts: usize,
}

impl Search<'_> {
    fn attempt(&mut self, change: impl FnOnce(&mut Case)) -> bool {
        let mut case = self.best.clone();
        change(&mut case);
        if case == self.best || self.attempts >= ATTEMPTS {
            return false;
        }
        self.attempts += 1;
        let failed = (self.fails)(&case);
        if failed {
            self.best = case;
        }
        failed
    }

    fn fewer_actions(&mut self) {
        self.shorten(|case| case.actions.len(), |case, from, to| drop(case.actions.drain(from..to)));
    }

    fn less_text(&mut self) {
        self.shorten(|case| case.text.len(), |case, from, to| drop(case.text.drain(from..to)));
    }

    /// Takes out parts of a list, from halves down to single places.
    fn shorten(&mut self, length: fn(&Case) -> usize, cut: fn(&mut Case, usize, usize)) {
        let (mut part, least) = parts(length(&self.best));
        while part >= least {
            let mut from = 0;
            while from < length(&self.best) {
                let to = length(&self.best).min(from + part);
                if !self.attempt(|case| cut(case, from, to)) {
                    from += part;
                }
            }
            part /= 2;
        }
    }

    fn smaller_sizes(&mut self) {
        let sizes: [fn(&mut Sizes) -> &mut usize; 5] = [
            |sizes| &mut sizes.operators,
            |sizes| &mut sizes.labels,
            |sizes| &mut sizes.operand_stack,
            |sizes| &mut sizes.call_stack,
            |sizes| &mut sizes.memory,
        ];
        for size in sizes {
            for smaller in [|_| 0, |size| size / 2, |size: usize| size.saturating_sub(1)] {
                while self.attempt(|case| *size(&mut case.sizes) = smaller(*size(&mut case.sizes))) {}
            }
        }
    }

    /// Smaller numbers and plainer letters.
    fn plainer(&mut self) {
        for fill in [0, 1] {
            self.attempt(|case| case.fill = fill);
        }
        for place in 0..self.best.actions.len() {
            for smaller in [|_| 0, |_| 1, |number| number / 2, |number: u64| number.saturating_sub(1)] {
                while self.attempt(|case| with_smaller(&mut case.actions[place], smaller)) {}
            }
        }
        for plain in [b' ', b'1', b'a'] {
            self.plainer_text(plain);
        }
    }

    /// Writes one letter over parts of the text, from the whole down to single bytes.
    fn plainer_text(&mut self, plain: u8) {
        let length = self.best.text.len();
        let (mut part, least) = parts(length);
        while part >= least {
            for from in (0..length).step_by(part) {
                let to = length.min(from + part);
                if self.best.text[from..to].iter().any(|&byte| byte != b' ' && byte != b'1' && byte != plain) {
                    self.attempt(|case| case.text[from..to].fill(plain));
                }
            }
            part /= 2;
        }
    }
}

/// The largest and the least part of a list that are tried: a long one is first cut down in large parts.
fn parts(length: usize) -> (usize, usize) {
    (length.next_power_of_two(), 1 + length / 500)
}

fn with_smaller(action: &mut Action, smaller: fn(u64) -> u64) {
    let smaller_word = |word: &mut u32| *word = (*word).min(smaller((*word).into()) as u32);
    match action {
        Action::Call(Call::Run { budget: word }) | Action::Call(Call::Push { word }) => smaller_word(word),
        Action::Call(Call::Read { address }) => smaller_word(address),
        Action::Call(Call::Write { address, word }) => {
            smaller_word(address);
            smaller_word(word);
        }
        Action::Forge(_, value) => *value = (*value).min(smaller(*value)),
        Action::Call(_) => {}
    }
}
