//! UTF-8 by Unicode table 3-7, and white space.

/// A row of table 3-7: first byte from and to, second byte from and to, length. Later bytes are 80 to BF.
const SEQUENCES: [(u8, u8, u8, u8, usize); 8] = [
    (0xC2, 0xDF, 0x80, 0xBF, 2),
    (0xE0, 0xE0, 0xA0, 0xBF, 3),
    (0xE1, 0xEC, 0x80, 0xBF, 3),
    (0xED, 0xED, 0x80, 0x9F, 3),
    (0xEE, 0xEF, 0x80, 0xBF, 3),
    (0xF0, 0xF0, 0x90, 0xBF, 4),
    (0xF1, 0xF3, 0x80, 0xBF, 4),
    (0xF4, 0xF4, 0x80, 0x8F, 4),
];

const WHITE_SPACE: [(u32, u32); 10] = [
    (0x0009, 0x000D),
    (0x0020, 0x0020),
    (0x0085, 0x0085),
    (0x00A0, 0x00A0),
    (0x1680, 0x1680),
    (0x2000, 0x200A),
    (0x2028, 0x2029),
    (0x202F, 0x202F),
    (0x205F, 0x205F),
    (0x3000, 0x3000),
];

pub fn is_white(scalar: u32) -> bool {
    WHITE_SPACE.iter().any(|&(from, to)| from <= scalar && scalar <= to)
}

/// The scalar value at the front and its length in bytes, or none where the sequence there is ill-formed.
pub fn front(bytes: &[u8]) -> Option<(u32, usize)> {
    let first = *bytes.first()?;
    if first < 0x80 {
        return Some((first.into(), 1));
    }
    let &(_, _, from, to, length) = SEQUENCES.iter().find(|row| row.0 <= first && first <= row.1)?;
    let rest = bytes.get(1..length)?;
    if rest[0] < from || to < rest[0] || rest.iter().any(|&byte| byte / 0x40 != 2) {
        return None;
    }
    let high = u32::from(first) % (1 << (7 - length));
    Some((rest.iter().fold(high, |scalar, &byte| scalar * 64 + u32::from(byte) % 64), length))
}

/// The characters with their offsets, or the offset where the first ill-formed sequence starts.
pub fn characters(text: &[u8]) -> Result<Vec<(usize, u32)>, usize> {
    let mut found = Vec::new();
    let mut at = 0;
    while at < text.len() {
        let (scalar, length) = front(&text[at..]).ok_or(at)?;
        found.push((at, scalar));
        at += length;
    }
    Ok(found)
}
