//! Compile: records of operators and labels, and the refusals 22, 21, 23 and 24 in that order.

use crate::text::characters;
use crate::tokens::{Kind, kind_of, tokens};

pub fn compile(text: &[u8], operators: &mut [u32], labels: &mut [u32]) -> [u64; 4] {
    if text.len() > 65_535 {
        return [22, 65_535, 0, 0];
    }
    let characters = match characters(text) {
        Ok(characters) => characters,
        Err(offset) => return [21, offset as u64, 0, 0],
    };
    let (found_operators, found_labels) = records(text, &characters);
    let counts = [found_operators.len() as u64, found_labels.len() as u64];
    if found_operators.len() > operators.len() / 4 {
        return [23, counts[0], 0, 0];
    }
    if found_labels.len() > labels.len() / 3 {
        return [24, counts[1], 0, 0];
    }
    write(&found_operators, operators);
    write(&found_labels, labels);
    [0, counts[0], counts[0], counts[1]]
}

fn records(text: &[u8], characters: &[(usize, u32)]) -> (Vec<[u32; 4]>, Vec<[u32; 3]>) {
    let mut operators = Vec::new();
    let mut labels = Vec::new();
    for token in tokens(characters, text.len()) {
        let (start, end) = (token.start as u32, token.end as u32);
        match kind_of(&text[token]) {
            Kind::Label => labels.push([start, end - 1, operators.len() as u32]),
            Kind::Reference => operators.push([2, start, end, 0]),
            Kind::Integer(bits) => operators.push([1, start, end, bits]),
            Kind::Identifier => operators.push([0, start, end, 0]),
        }
    }
    (operators, labels)
}

fn write<const WIDTH: usize>(records: &[[u32; WIDTH]], table: &mut [u32]) {
    for (place, word) in records.iter().flatten().enumerate() {
        table[place] = *word;
    }
}
