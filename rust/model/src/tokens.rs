//! Tokens as ranges of the text, and what each is.

use crate::numbers::i32_or_u32;
use crate::text::is_white;
use std::ops::Range;

enum Place {
    Between,
    Comment,
    Token { start: usize },
}

pub fn tokens(characters: &[(usize, u32)], length: usize) -> Vec<Range<usize>> {
    let mut found = Vec::new();
    let mut place = Place::Between;
    for &(at, scalar) in characters {
        place = match place {
            Place::Between if scalar == u32::from('#') => Place::Comment,
            Place::Between if is_white(scalar) => Place::Between,
            Place::Between => Place::Token { start: at },
            Place::Comment if scalar == 0x0A => Place::Between,
            Place::Comment => Place::Comment,
            Place::Token { start } if is_white(scalar) => {
                found.push(start..at);
                Place::Between
            }
            token => token,
        };
    }
    if let Place::Token { start } = place {
        found.push(start..length);
    }
    found
}

pub enum Kind {
    Label,
    Reference,
    Integer(u32),
    Identifier,
}

/// The first kind that fits.
pub fn kind_of(token: &[u8]) -> Kind {
    if token.ends_with(b":") {
        return Kind::Label;
    }
    if token.starts_with(b"@") {
        return Kind::Reference;
    }
    let hexadecimal = token.strip_prefix(b"0x").and_then(|rest| i32_or_u32(rest, 16));
    match hexadecimal.or_else(|| i32_or_u32(token, 10)) {
        Some(bits) => Kind::Integer(bits),
        None => Kind::Identifier,
    }
}
