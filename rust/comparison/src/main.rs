//! Compares an engine with the Rust that it replaces, and with a model of the definition.

mod case;
mod check;
mod faults;
mod kinds;
#[cfg(feature = "library")]
mod library;
mod lists;
mod random;
mod record;
mod runs;
mod rust_side;
mod scripts;
mod shrink;
mod tally;
mod texts;
mod world;
mod written;

use check::Counts;
use model::{Engine, Model};
use std::process::ExitCode;

const USAGE: &str = "\
usage: comparison [--seconds N | --full | --replay CASE | --examples FOLDER | --faults | --record FOLDER | --recorded FOLDER]
                  [--engine library|model] [--seed N] [--kind NAME] [--announce]

  --seconds N    a part of every kind of case, for about N seconds (default: 120)
  --full         every exhaustive kind whole, and fixed numbers of random cases
  --replay CASE  one case, as a run printed it
  --examples F   the scripts of a folder, run as tally does, against the files beside them
  --record F     write the fixed list of the Rust's answers to a folder
  --recorded F   play that list with the engine
  --faults       does the comparison find each of a list of deliberate faults?
  --engine E     what is compared: the linked library (default), or the model
  --kind NAME    that kind of case alone
  --announce     print each case before it is played; after a crash the last one is it

Columns: cases; answers that are the Rust's own; refusals by size or budget, where the Rust made the same steps and came to
the same state; answers that only the model of the definition has (refusals of forged states); steps made in all.";

/// What the command line asks for.
enum Task {
    Compare,
    Replay(String),
    Examples(String),
    Faults,
    Record(String),
    Recorded(String),
}

fn main() -> ExitCode {
    let mut settings = runs::Settings { seed: 1, seconds: Some(120), kind: None, announce: false };
    let (mut engine, mut task) = ("library".to_string(), Task::Compare);
    let mut words = std::env::args().skip(1);
    while let Some(word) = words.next() {
        let mut operand = || words.next().unwrap_or_default();
        match word.as_str() {
            "--seconds" => match operand().parse() {
                Ok(seconds) => settings.seconds = Some(seconds),
                Err(_) => return usage(),
            },
            "--full" => settings.seconds = None,
            "--seed" => settings.seed = operand().parse().unwrap_or(1),
            "--kind" => settings.kind = Some(operand()),
            "--announce" => settings.announce = true,
            "--engine" => engine = operand(),
            "--replay" => task = Task::Replay(operand()),
            "--examples" => task = Task::Examples(operand()),
            "--faults" => task = Task::Faults,
            "--record" => task = Task::Record(operand()),
            "--recorded" => task = Task::Recorded(operand()),
            _ => return usage(),
        }
    }
    let Some(engine) = engine_named(&engine) else { return usage() };
    let agrees = match task {
        Task::Compare => runs::run(&settings, &*engine),
        Task::Replay(line) => replayed(&line, &*engine),
        Task::Examples(folder) => tally::examples(folder.as_ref(), &*engine),
        Task::Faults => faults::run(settings.seed),
        Task::Record(folder) => recorded(&folder, settings.seed),
        Task::Recorded(folder) => record_replayed(&folder, &*engine),
    };
    if agrees { ExitCode::SUCCESS } else { ExitCode::FAILURE }
}

fn usage() -> ExitCode {
    eprintln!("{USAGE}");
    ExitCode::from(2)
}

fn engine_named(name: &str) -> Option<Box<dyn Engine>> {
    match name {
        "model" => Some(Box::new(Model)),
        #[cfg(feature = "library")]
        "library" => Some(Box::new(library::Library)),
        _ => None,
    }
}

fn replayed(line: &str, engine: &dyn Engine) -> bool {
    let Some(case) = written::read(line) else {
        eprintln!("not a case: {line}");
        return false;
    };
    let difference = runs::difference(&case, engine, &mut Counts::default());
    println!("{}", difference.as_deref().unwrap_or("no difference"));
    difference.is_none()
}

fn recorded(folder: &str, seed: u64) -> bool {
    match record::write(folder.as_ref(), seed) {
        Ok(count) => println!("{count} cases of the Rust's answers in {folder}"),
        Err(error) => eprintln!("{folder}: {error}"),
    }
    record_replayed(folder, &Model)
}

fn record_replayed(folder: &str, engine: &dyn Engine) -> bool {
    let (cases, agreeing) = record::replay(folder.as_ref(), engine).unwrap_or((0, 0));
    println!("{agreeing} of {cases} recorded cases agree");
    let (altered, unnoticed) = record::replay_altered(folder.as_ref(), engine).unwrap_or((0, 0));
    println!("{unnoticed} of {altered} cases with a changed answer agree");
    cases > 0 && agreeing == cases && altered > 0 && unnoticed == 0
}
