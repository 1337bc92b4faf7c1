//! The 30 words.

use crate::engine::Lent;
use crate::machine::*;

pub const WORDS: [&str; 30] = [
    "*", "+", "-", "/", "<", "<=", "=", ">", ">=", "and", "or", "xor", "count_ones", "leading_zeros", "trailing_zeros",
    "rotate_left", "rotate_right", "shift_left", "shift_right", "copy", "drop", "jump", "jump_if", "call", "call_either", "return",
    "assert", "yield", "read", "write",
];

pub fn evaluate(name: &[u8], lent: &mut Lent) -> Result<(), Stop> {
    match name {
        b"/" => divide(lent),
        b"count_ones" | b"leading_zeros" | b"trailing_zeros" => {
            let a = lent.pop()?;
            lent.push(counted(name, a));
            Ok(())
        }
        b"copy" | b"drop" => copy_or_drop(name, lent),
        b"jump" | b"jump_if" | b"call" | b"call_either" | b"return" => go(name, lent),
        b"assert" => {
            if lent.pop()? == 0 {
                Err(ASSERTION_FAILED)
            } else {
                Ok(())
            }
        }
        b"yield" => Err(YIELD),
        b"read" | b"write" => read_or_write(name, lent),
        _ if !WORDS.iter().any(|word| word.as_bytes() == name) => Err(UNKNOWN_IDENTIFIER),
        _ => {
            let b = lent.pop()?;
            let a = lent.pop()?;
            lent.push(made_of(name, a, b));
            Ok(())
        }
    }
}

/// The two's complement reading.
fn signed(word: u32) -> i64 {
    i64::from(word) - if word < 1 << 31 { 0 } else { 1 << 32 }
}

fn low_32_bits(number: i64) -> u32 {
    number.rem_euclid(1 << 32) as u32
}

fn made_of(name: &[u8], a: u32, b: u32) -> u32 {
    let (x, y) = (signed(a), signed(b));
    match name {
        b"*" => low_32_bits(x * y),
        b"+" => low_32_bits(x + y),
        b"-" => low_32_bits(x - y),
        b"<" => (x < y).into(),
        b"<=" => (x <= y).into(),
        b"=" => (x == y).into(),
        b">" => (x > y).into(),
        b">=" => (x >= y).into(),
        b"and" => a & b,
        b"or" => a | b,
        b"xor" => a ^ b,
        b"rotate_left" => rotated_left(a, b % 32),
        b"rotate_right" => rotated_left(a, (32 - b % 32) % 32),
        b"shift_left" => low_32_bits(x * (1 << (b % 32))),
        _ => low_32_bits(x.div_euclid(1 << (b % 32))),
    }
}

fn rotated_left(a: u32, places: u32) -> u32 {
    let twice = u64::from(a) * (1 + (1 << 32));
    ((twice << places) >> 32) as u32
}

fn counted(name: &[u8], a: u32) -> u32 {
    let bits = (0..32).map(|place| a >> place & 1 == 1);
    let count = match name {
        b"count_ones" => bits.filter(|&one| one).count(),
        b"leading_zeros" => bits.rev().take_while(|&one| !one).count(),
        _ => bits.take_while(|&one| !one).count(),
    };
    count as u32
}

fn divide(lent: &mut Lent) -> Result<(), Stop> {
    let b = signed(lent.pop()?);
    let a = signed(lent.pop()?);
    if b == 0 {
        return Err(DIVISION_BY_ZERO);
    }
    if a == -2_147_483_648 && b == -1 {
        return Err(INTEGER_OVERFLOW);
    }
    let size = a.abs() / b.abs();
    let quotient = if (a < 0) == (b < 0) { size } else { -size };
    lent.push(low_32_bits(quotient));
    lent.push(low_32_bits(a - quotient * b));
    Ok(())
}

fn copy_or_drop(name: &[u8], lent: &mut Lent) -> Result<(), Stop> {
    let index = lent.pop()?;
    let place = lent.operand_at(index)?;
    if name == b"copy" {
        lent.push(lent.operand_stack[place]);
        Ok(())
    } else {
        lent.close_gap(place)
    }
}

fn go(name: &[u8], lent: &mut Lent) -> Result<(), Stop> {
    match name {
        b"jump" => lent.state.next_operator = lent.pop()?,
        b"jump_if" => {
            let index = lent.pop()?;
            if lent.pop()? != 0 {
                lent.state.next_operator = index;
            }
        }
        b"call" => {
            lent.enter()?;
            lent.state.next_operator = lent.pop()?;
        }
        b"call_either" => {
            lent.enter()?;
            let otherwise = lent.pop()?;
            let then = lent.pop()?;
            lent.state.next_operator = if lent.pop()? != 0 { then } else { otherwise };
        }
        _ => lent.leave()?,
    }
    Ok(())
}

fn read_or_write(name: &[u8], lent: &mut Lent) -> Result<(), Stop> {
    let written = if name == b"write" { Some(lent.pop()?) } else { None };
    let address = lent.pop()? as usize;
    if address >= lent.memory.len() {
        return Err(INVALID_ADDRESS);
    }
    match written {
        Some(word) => lent.memory[address] = word,
        None => lent.push(lent.memory[address]),
    }
    Ok(())
}
