//! Numbers: an optional sign, then at least one digit.

const BEYOND: u64 = 1 << 40;

/// The bits of an i32, else of a u32, written in the base.
pub fn i32_or_u32(bytes: &[u8], base: u64) -> Option<u32> {
    match bytes {
        [b'-', digits @ ..] => magnitude(digits, base).filter(|&n| n <= 1 << 31).map(|n| ((1 << 32) - n) as u32),
        [b'+', digits @ ..] | digits => magnitude(digits, base).filter(|&n| n < 1 << 32).map(|n| n as u32),
    }
}

/// What the digits amount to; all beyond 32 bits counts as one number.
fn magnitude(digits: &[u8], base: u64) -> Option<u64> {
    if digits.is_empty() {
        return None;
    }
    digits.iter().try_fold(0, |n, &byte| Some((n * base + digit(byte, base)?).min(BEYOND)))
}

fn digit(byte: u8, base: u64) -> Option<u64> {
    let value = match byte {
        b'0'..=b'9' => byte - b'0',
        b'a'..=b'f' => byte - b'a' + 10,
        b'A'..=b'F' => byte - b'A' + 10,
        _ => return None,
    };
    Some(value.into()).filter(|&n| n < base)
}
