//! Faults of compile.

use super::{Compile, Fault, Wrong};
use model::{Engine, Model};

fn fault(name: &'static str, wrong: Compile) -> Fault {
    Fault { name, wrong: Wrong::Compile(wrong) }
}

pub fn faults() -> Vec<Fault> {
    let mut faults = characters();
    faults.extend(numbers());
    faults.extend(tokens());
    faults.extend(tables());
    faults.extend(refusals());
    faults
}

/// The model on a text in which some bytes are taken for others.
fn taken(text: &[u8], operators: &mut [u32], labels: &mut [u32], bytes: &[u8], for_others: &[u8]) -> [u64; 4] {
    let mut text = text.to_vec();
    for at in 0..text.len() {
        if text[at..].starts_with(bytes) {
            text[at..at + bytes.len()].copy_from_slice(for_others);
        }
    }
    Model.compile(&text, operators, labels)
}

fn characters() -> Vec<Fault> {
    vec![
        fault("a comment ends at U+000D", |t, o, l| taken(t, o, l, b"\r", b"\n")),
        fault("U+200B is white space", |t, o, l| taken(t, o, l, b"\xE2\x80\x8B", b"\xE2\x80\x8A")),
        fault("U+FEFF is white space", |t, o, l| taken(t, o, l, b"\xEF\xBB\xBF", b"\xE3\x80\x80")),
        fault("U+180E is white space", |t, o, l| taken(t, o, l, b"\xE1\xA0\x8E", b"\xE3\x80\x80")),
        fault("U+0085 is not white space", |t, o, l| taken(t, o, l, b"\xC2\x85", b"\xC2\x86")),
        fault("U+2007 is not white space", |t, o, l| taken(t, o, l, b"\xE2\x80\x87", b"\xE2\x80\x8B")),
        fault("U+001F is white space", |t, o, l| taken(t, o, l, b"\x1F", b" ")),
        fault("the overlong form C0 80 is accepted", |t, o, l| taken(t, o, l, b"\xC0\x80", b"aa")),
        fault("the overlong form E0 9F BF is accepted", |t, o, l| taken(t, o, l, b"\xE0\x9F\xBF", b"aaa")),
        fault("a surrogate is accepted", |t, o, l| taken(t, o, l, b"\xED\xA0\x80", b"aaa")),
        fault("U+110000 is accepted", |t, o, l| taken(t, o, l, b"\xF4\x90\x80\x80", b"aaaa")),
        fault("a sequence cut off by the text's end is accepted", |t, o, l| match t.split_last() {
            Some((0xC2.., rest)) => Model.compile(&[rest, b"a"].concat(), o, l),
            _ => Model.compile(t, o, l),
        }),
        fault("21 gives the offset of the byte that does not fit", |t, o, l| {
            let out = Model.compile(t, o, l);
            if out[0] == 21 && t[out[1] as usize] >= 0xC2 { [21, out[1] + 1, 0, 0] } else { out }
        }),
    ]
}

/// The model's records, each changed.
fn changed(text: &[u8], operators: &mut [u32], labels: &mut [u32], change: fn(&[u8], &mut [u32], &mut [u32])) -> [u64; 4] {
    let out = Model.compile(text, operators, labels);
    for record in operators.chunks_exact_mut(4).take(out[2] as usize) {
        change(text, record, &mut []);
    }
    for record in labels.chunks_exact_mut(3).take(out[3] as usize) {
        change(text, &mut [], record);
    }
    out
}

fn numbers() -> Vec<Fault> {
    vec![
        fault("`0X` begins a hexadecimal number", |t, o, l| taken(t, o, l, b"0X", b"0x")),
        fault("4294967296 is the number 0", |t, o, l| taken(t, o, l, b"4294967296", b"0000000000")),
        fault("-2147483648 is an identifier", |t, o, l| taken(t, o, l, b"-2147483648", b"-2147483649")),
        fault("2147483648 is an identifier", |t, o, l| taken(t, o, l, b"2147483648", b"a147483648")),
        fault("`0x-1` is an identifier", |t, o, l| taken(t, o, l, b"0x-", b"0y-")),
        fault("`+1` is an identifier", |t, o, l| taken(t, o, l, b"+1", b"a1")),
        fault("a hexadecimal digit may not be a capital", |t, o, l| taken(t, o, l, b"0xF", b"0xg")),
    ]
}

fn tokens() -> Vec<Fault> {
    vec![
        fault("`#` inside a token ends it", |t, o, l| {
            changed(t, o, l, |text, operator, _| {
                if let [_, start, end, _] = operator {
                    let token = &text[*start as usize..*end as usize];
                    *end = *start + token.iter().position(|&byte| byte == b'#').unwrap_or(token.len()) as u32;
                }
            })
        }),
        fault("`@` with no name is an identifier", |t, o, l| {
            changed(t, o, l, |_, operator, _| {
                if let [kind @ 2, start, end, _] = operator {
                    *kind = if *end == *start + 1 { 0 } else { 2 };
                }
            })
        }),
        fault("`@a:` is no label", |t, o, l| taken(t, o, l, b"@a:", b"@aa")),
        fault("a label's name has its colon", |t, o, l| {
            changed(t, o, l, |_, _, label| {
                if let [_, end, _] = label {
                    *end += 1
                }
            })
        }),
        fault("a label names the operator before it", |t, o, l| {
            changed(t, o, l, |_, _, label| {
                if let [_, _, operator] = label {
                    *operator = operator.saturating_sub(1)
                }
            })
        }),
        fault("an identifier's value word is not 0", |t, o, l| {
            changed(t, o, l, |_, operator, _| {
                if let [0, _, end, value] = operator {
                    *value = *end
                }
            })
        }),
    ]
}

fn tables() -> Vec<Fault> {
    vec![
        fault("the word after the operator records is overwritten", |t, o, l| {
            let out = Model.compile(t, o, l);
            if let (0, Some(word)) = (out[0], o.get_mut(4 * out[2] as usize)) {
                *word = !*word;
            }
            out
        }),
        fault("the word after the label records is overwritten", |t, o, l| {
            let out = Model.compile(t, o, l);
            if let (0, Some(word)) = (out[0], l.get_mut(3 * out[3] as usize)) {
                *word = !*word;
            }
            out
        }),
        fault("a compile refused for its labels has written an operator", |t, o, l| {
            let out = Model.compile(t, o, l);
            if let (24, Some(word)) = (out[0], o.first_mut()) {
                *word = !*word;
            }
            out
        }),
        fault("a table with three words more than its records is full", |t, o, l| {
            let out = Model.compile(t, &mut vec![0; o.len()], &mut vec![0; l.len()]);
            if out[0] == 0 && o.len() == 4 * out[2] as usize + 3 { [23, out[2], 0, 0] } else { Model.compile(t, o, l) }
        }),
    ]
}

fn refusals() -> Vec<Fault> {
    vec![
        fault("24 is tested before 23", |t, o, l| match Model.compile(t, &mut vec![0; 4 * t.len()], &mut vec![0; l.len()]) {
            [24, value, ..] => [24, value, 0, 0],
            _ => Model.compile(t, o, l),
        }),
        fault("21 is tested before 22", |t, o, l| match std::str::from_utf8(t) {
            Err(error) => [21, error.valid_up_to() as u64, 0, 0],
            Ok(_) => Model.compile(t, o, l),
        }),
        fault("65,535 bytes are too many", |t, o, l| if t.len() == 65_535 { [22, 65_535, 0, 0] } else { Model.compile(t, o, l) }),
        fault("22 gives the text's length", |t, o, l| match Model.compile(t, o, l) {
            [22, ..] => [22, t.len() as u64, 0, 0],
            out => out,
        }),
        fault("23 gives the table's capacity", |t, o, l| match Model.compile(t, o, l) {
            [23, ..] => [23, o.len() as u64 / 4, 0, 0],
            out => out,
        }),
        fault("a refused compile has an operator count", |t, o, l| match Model.compile(t, o, l) {
            [24, value, ..] => [24, value, o.len() as u64 / 4, 0],
            out => out,
        }),
    ]
}
