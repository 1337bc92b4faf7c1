//! Faults of the source of an operator and of the call stack's list.

use super::{Fault, Wrong};
use model::{Engine, Model};

pub fn faults() -> Vec<Fault> {
    let source = |name, wrong| Fault { name, wrong: Wrong::Source(wrong) };
    let call_stack = |name, wrong| Fault { name, wrong: Wrong::CallStack(wrong) };
    vec![
        source("the source of a damaged record is not empty", |count, text, operators, index| {
            let mut out = Model.source(count, text, operators, index);
            if out[0] == 26 {
                out[4] = 1;
            }
            out
        }),
        source("31 comes before 25", |count, text, operators, index| {
            if index as usize >= count { [31, index.into(), 0, 0, 0] } else { Model.source(count, text, operators, index) }
        }),
        source("a range has one byte more", |count, text, operators, index| {
            let mut out = Model.source(count, text, operators, index);
            if out[0] == 0 && (out[4] as usize) < text.len() {
                out[4] += 1;
            }
            out
        }),
        call_stack("the entry itself is listed", |depth, entries, place| match Model.call_stack(depth, entries, place) {
            [0, value, 0] => [0, value + 1, 0],
            out => out,
        }),
        call_stack("place 0 is the bottom", |depth, entries, place| match entries.get(..depth) {
            Some(live) if place < depth => Model.call_stack(depth, &live.iter().rev().copied().collect::<Vec<_>>(), place),
            _ => Model.call_stack(depth, entries, place),
        }),
        call_stack("an entry 0 is listed as 4294967295", |depth, entries, place| {
            let out = Model.call_stack(depth, entries, place);
            if out[0] == 25 && place < depth && depth <= entries.len() { [0, u32::MAX.into(), 0] } else { out }
        }),
    ]
}
