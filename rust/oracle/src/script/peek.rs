//! What a script keeps private, read and set.

use super::*;

pub fn operators(script: &Script) -> &[Operator] {
    &script.operators
}

pub fn labels(script: &Script) -> &[Label] {
    &script.labels
}

/// A script with these operators and labels, as no text may have given them. It has no source map.
pub fn made(operators: Vec<Operator>, labels: Vec<Label>) -> Script {
    Script { operators, labels, source_map: BTreeMap::new() }
}

pub fn index(value: u32) -> OperatorIndex {
    OperatorIndex { value }
}
