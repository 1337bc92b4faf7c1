//! The scripts in examples/ print what the files beside them say, run as tally runs them.

use stack_assembly::{Eval, Script};
use std::fs;
use std::path::Path;

fn tally(text: &str) -> String {
    let script = Script::compile_within(text, 4096, 1024).unwrap();
    let mut eval = Eval::new();
    let ran = eval.run(&script, 1_000_000).unwrap();
    let operands: String = eval.operand_stack().to_i32_slice().iter().map(|word| format!("{word}\n")).collect();
    format!("{} {} {}\n{operands}", ran.effect.number(), ran.operator, ran.steps)
}

#[test]
fn every_example() {
    let folder = Path::new(env!("CARGO_MANIFEST_DIR")).join("../../examples");
    let mut count = 0;
    for entry in fs::read_dir(folder).unwrap() {
        let path = entry.unwrap().path();
        if path.extension().is_some_and(|extension| extension == "stack") {
            let expected = fs::read_to_string(path.with_extension("tally")).unwrap();
            assert_eq!(tally(&fs::read_to_string(&path).unwrap()), expected, "{}", path.display());
            count += 1;
        }
    }
    assert!(count >= 4);
}
