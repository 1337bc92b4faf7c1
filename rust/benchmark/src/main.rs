//! The Rust and the engine in one process, on the same texts and scripts: interleaved rounds, the best of many.

mod growth;
mod inputs;
mod rows;
mod sides;

use rows::{Row, Unit, rows};
use std::process::ExitCode;

const USAGE: &str = "\
usage: benchmark [--rounds N] [--row PART] [--growth]
       benchmark --only rust|engine --row PART --times N

  --rounds N   so many interleaved rounds, of which the best counts (default: 60)
  --row PART   only rows whose name has this part
  --growth     print what grows with what, too
  --only SIDE  do the row's work N times on one side, and print nothing: for callgrind";

fn main() -> ExitCode {
    let (mut rounds, mut part, mut growth, mut only, mut times) = (60, String::new(), false, None, 1);
    let mut words = std::env::args().skip(1);
    while let Some(word) = words.next() {
        match word.as_str() {
            "--rounds" => rounds = words.next().and_then(|word| word.parse().ok()).unwrap_or(rounds),
            "--row" => part = words.next().unwrap_or_default(),
            "--growth" => growth = true,
            "--only" => only = words.next(),
            "--times" => times = words.next().and_then(|word| word.parse().ok()).unwrap_or(times),
            _ => {
                eprintln!("{USAGE}");
                return ExitCode::from(2);
            }
        }
    }
    let mut chosen: Vec<Row> = rows().into_iter().filter(|row| row.name.contains(&part)).collect();
    if let Some(side) = only {
        for row in &mut chosen {
            let work = if side == "rust" { &mut row.rust } else { &mut row.engine };
            (0..times).for_each(|_| {
                work();
            });
        }
        return ExitCode::SUCCESS;
    }
    print_table(&measured(&mut chosen, rounds));
    if growth {
        growth::print(rounds);
    }
    ExitCode::SUCCESS
}

/// A row's name and unit, and the best nanoseconds of both sides.
struct Measured {
    name: String,
    unit: Unit,
    rust: f64,
    engine: f64,
}

fn measured(rows: &mut [Row], rounds: u32) -> Vec<Measured> {
    let start = |row: &Row| Measured { name: row.name.clone(), unit: row.unit, rust: f64::INFINITY, engine: f64::INFINITY };
    let mut best: Vec<Measured> = rows.iter().map(start).collect();
    for round in 0..rounds {
        for (row, best) in rows.iter_mut().zip(&mut best) {
            if round % 2 == 0 {
                best.rust = best.rust.min((row.rust)());
            }
            best.engine = best.engine.min((row.engine)());
            if round % 2 == 1 {
                best.rust = best.rust.min((row.rust)());
            }
        }
    }
    best
}

fn speed(unit: Unit, ns: f64) -> String {
    match unit {
        Unit::Byte => format!("{:.0} MB/s", 1e3 / ns),
        Unit::Step => format!("{ns:.2} ns a step"),
        Unit::Card => format!("{ns:.0} ns a card"),
        Unit::Call => format!("{ns:.1} ns a call"),
    }
}

fn print_table(rows: &[Measured]) {
    println!("| row | the Rust | the engine | ratio |\n|---|---:|---:|---:|");
    for row in rows {
        let ratio = row.rust / row.engine;
        println!("| {} | {} | {} | {ratio:.2} |", row.name, speed(row.unit, row.rust), speed(row.unit, row.engine));
    }
    for (what, units) in [("compile", &[Unit::Byte][..]), ("run", &[Unit::Step, Unit::Card]), ("step", &[Unit::Call])] {
        let ratios = rows.iter().filter(|row| units.contains(&row.unit)).map(|row| (row.rust / row.engine, &row.name));
        if let Some((ratio, name)) = ratios.min_by(|one, other| one.0.total_cmp(&other.0)) {
            println!("worst ratio of {what}: {ratio:.2} ({name})");
        }
    }
}
