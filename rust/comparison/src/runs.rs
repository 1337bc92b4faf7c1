//! A run over the kinds, bounded by seconds or whole, and the table that it prints.

use crate::case::Case;
use crate::check::{Counts, check};
use crate::kinds::{KINDS, Kind};
use crate::shrink::shrink;
use model::Engine;
use std::panic::{AssertUnwindSafe, catch_unwind};
use std::time::{Duration, Instant};

pub struct Settings {
    pub seed: u64,
    /// None: every kind to its end.
    pub seconds: Option<u64>,
    /// The kind that is run alone.
    pub kind: Option<String>,
    /// Print each case before it is played: after a crash the last one is it.
    pub announce: bool,
}

/// A case that failed, made short, and what differs in it.
pub struct Found {
    pub case: Case,
    pub difference: String,
}

/// What differs in a case; a panic counts as a difference.
pub fn difference(case: &Case, engine: &dyn Engine, counts: &mut Counts) -> Option<String> {
    let checked = catch_unwind(AssertUnwindSafe(|| check(case, engine, counts)));
    checked.unwrap_or_else(|_| Err("a panic".into())).err()
}

pub fn found(case: Case, engine: &dyn Engine) -> Found {
    let fails = |case: &Case| difference(case, engine, &mut Counts::default()).is_some();
    let case = shrink(case, &fails);
    let difference = difference(&case, engine, &mut Counts::default()).expect("it still fails");
    Found { case, difference }
}

struct Row {
    kind: &'static Kind,
    counts: Counts,
    found: Option<Found>,
}

/// Runs the kinds; answers whether nothing differed.
pub fn run(settings: &Settings, engine: &dyn Engine) -> bool {
    let begun = Instant::now();
    let chosen: Vec<&'static Kind> =
        KINDS.iter().filter(|kind| settings.kind.as_ref().is_none_or(|name| kind.name == name)).collect();
    let mut rows: Vec<Row> = chosen.iter().map(|kind| Row { kind, counts: Counts::default(), found: None }).collect();
    let left = rows.len() as u32;
    for (place, row) in rows.iter_mut().enumerate() {
        let share = settings.seconds.map(|seconds| {
            let rest = Duration::from_secs(seconds).saturating_sub(begun.elapsed());
            Instant::now() + rest / (left - place as u32)
        });
        run_kind(row, settings, share, engine);
    }
    print_table(&rows, settings, begun.elapsed());
    rows.iter().all(|row| row.found.is_none() && row.counts.cases > 0) && !rows.is_empty()
}

fn run_kind(row: &mut Row, settings: &Settings, until: Option<Instant>, engine: &dyn Engine) {
    let mut number = 0;
    while !is_over(row.kind, number, until) {
        let case = row.kind.case(settings.seed, number);
        if settings.announce {
            eprintln!("{case}");
        }
        if difference(&case, engine, &mut row.counts).is_some() {
            row.found = Some(found(case, engine));
            return;
        }
        number += 1;
    }
}

/// A bounded run goes on with random cases as long as it has time, and ends an exhaustive kind early if it has none.
fn is_over(kind: &Kind, number: u64, until: Option<Instant>) -> bool {
    let is_through = number >= kind.cases;
    match until {
        None => is_through,
        Some(_) if kind.is_exhaustive && is_through => true,
        Some(until) => number.is_multiple_of(64) && Instant::now() >= until,
    }
}

fn print_table(rows: &[Row], settings: &Settings, took: Duration) {
    println!("seed {}, {:.0} s", settings.seed, took.as_secs_f64());
    println!(
        "{:<22} {:>9} {:>12} {:>10} {:>10} {:>12} {:>11}",
        "kind", "cases", "the Rust's", "limits", "the model's", "steps", "differences"
    );
    let mut sum = Counts::default();
    for row in rows {
        sum.add(row.counts);
        print_row(row.kind.name, &row.counts, row.found.is_some().into());
    }
    print_row("all", &sum, rows.iter().filter(|row| row.found.is_some()).count());
    for row in rows {
        if let Some(found) = &row.found {
            println!("\n{}: {}\n  --replay '{}'", row.kind.name, found.difference, found.case);
        }
    }
}

fn print_row(name: &str, counts: &Counts, differences: usize) {
    let Counts { cases, rust, limits, model, steps } = counts;
    println!("{name:<22} {cases:>9} {rust:>12} {limits:>10} {model:>10} {steps:>12} {differences:>11}");
}
