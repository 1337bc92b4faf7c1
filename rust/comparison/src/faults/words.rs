//! Faults of single words.

use super::steps::{Before, Mend};
use super::{Fault, Wrong};
use model::Lent;

fn fault(name: &'static str, mend: Mend) -> Fault {
    Fault { name, wrong: Wrong::Step(mend) }
}

/// The word was evaluated without an effect.
pub fn made(before: &Before, out: &[u64; 8], word: &str) -> bool {
    out[0] == 0 && before.word == word.as_bytes()
}

/// Puts something else on the top.
fn top(lent: &mut Lent, out: &[u64; 8], word: u32) {
    lent.operand_stack[out[4] as usize - 1] = word;
}

/// A word of two operands gives something else.
fn binary(before: &Before, lent: &mut Lent, out: &[u64; 8], word: &str, of: fn(u32, u32) -> u32) {
    if made(before, out, word) {
        let [b, a, _] = before.top;
        top(lent, out, of(a, b));
    }
}

pub fn faults() -> Vec<Fault> {
    let mut faults = arithmetic();
    faults.extend(bits());
    faults.extend(places());
    faults.extend(flow());
    faults
}

fn arithmetic() -> Vec<Fault> {
    vec![
        fault("`*` stays at the largest number", |before, lent, out| {
            binary(before, lent, out, "*", |a, b| (a as i32).saturating_mul(b as i32) as u32)
        }),
        fault("`-` takes a from b", |before, lent, out| binary(before, lent, out, "-", |a, b| b.wrapping_sub(a))),
        fault("the remainder has b's sign", |before, lent, out| {
            if made(before, out, "/") {
                let [b, a, _] = before.top.map(|word| word as i32);
                let remainder = a.wrapping_rem(b);
                top(lent, out, if remainder != 0 && (a < 0) != (b < 0) { remainder.wrapping_add(b) } else { remainder } as u32);
            }
        }),
        fault("-2147483648 divided by -1 wraps", |before, lent, out| {
            if out[0] == 3 && before.state.effect == 0 {
                let depth = before.state.operand_depth;
                lent.operand_stack[depth - 2..depth].copy_from_slice(&[0x8000_0000, 0]);
                *out = [0, 0, 1, out[3], depth as u64, out[5], 0, before.state.effect_operator.into()];
            }
        }),
        fault("`<` is unsigned", |before, lent, out| binary(before, lent, out, "<", |a, b| (a < b).into())),
        fault("`>=` is `>`", |before, lent, out| binary(before, lent, out, ">=", |a, b| ((a as i32) > (b as i32)).into())),
    ]
}

fn bits() -> Vec<Fault> {
    vec![
        fault("a shift by 32 gives 0", |before, lent, out| {
            binary(before, lent, out, "shift_left", |a, b| a.checked_shl(b).unwrap_or(0))
        }),
        fault("a right shift does not copy the sign", |before, lent, out| {
            binary(before, lent, out, "shift_right", |a, b| a >> (b % 32))
        }),
        fault("a right shift by -1 shifts left", |before, lent, out| {
            binary(before, lent, out, "shift_right", |a, b| if b == u32::MAX { a << 1 } else { ((a as i32) >> (b % 32)) as u32 })
        }),
        fault("`rotate_right` rotates left", |before, lent, out| {
            binary(before, lent, out, "rotate_right", |a, b| a.rotate_left(b % 32))
        }),
        fault("zero has 31 leading zeros", |before, lent, out| {
            if made(before, out, "leading_zeros") && before.top[0] == 0 {
                top(lent, out, 31);
            }
        }),
        fault("zero has no trailing zeros", |before, lent, out| {
            if made(before, out, "trailing_zeros") && before.top[0] == 0 {
                top(lent, out, 0);
            }
        }),
        fault("`xor` is `or`", |before, lent, out| binary(before, lent, out, "xor", |a, b| a | b)),
    ]
}

fn places() -> Vec<Fault> {
    vec![
        fault("`drop` leaves a gap", |before, lent, out| {
            if made(before, out, "drop") && before.top[0] > 0 {
                let depth = out[4] as usize;
                let place = depth - before.top[0] as usize;
                lent.operand_stack.copy_within(place..depth - 1, place + 1);
            }
        }),
        fault("`copy` is off by one", |before, lent, out| {
            let place = (out[4] as usize).checked_sub(before.top[0] as usize + 2);
            if let (true, Some(place @ 1..)) = (made(before, out, "copy"), place) {
                top(lent, out, lent.operand_stack[place - 1]);
            }
        }),
        fault("the last word of memory cannot be read", |before, lent, out| {
            if made(before, out, "read") && before.top[0] as usize == lent.memory.len() - 1 {
                *out = [4, before.state.next_operator.into(), 1, out[3], out[4] - 1, out[5], 4, before.state.next_operator.into()];
            }
        }),
        fault("`write` takes the address from the top", |before, lent, out| {
            let [value, address, _] = before.top.map(|word| word as usize);
            if made(before, out, "write") && value < lent.memory.len() {
                lent.memory.swap(value, address);
                lent.memory[value] = address as u32;
            }
        }),
    ]
}

fn flow() -> Vec<Fault> {
    vec![
        fault("`jump_if` wants exactly 1", |before, _, out| {
            if made(before, out, "jump_if") && before.top[1] > 1 {
                out[3] = u64::from(before.state.next_operator) + 1;
            }
        }),
        fault("`call_either` takes the other", |before, _, out| {
            if made(before, out, "call_either") {
                out[3] = before.top[if before.top[2] == 0 { 1 } else { 0 }].into();
            }
        }),
        fault("`call` pushes its own index", |before, lent, out| {
            if made(before, out, "call") {
                lent.call_stack[out[5] as usize - 1] = before.state.next_operator;
            }
        }),
        fault("`return` goes to the call", |before, _, out| {
            if made(before, out, "return") {
                out[3] = out[3].saturating_sub(1);
            }
        }),
        fault("`assert` wants exactly 1", |before, _, out| {
            if made(before, out, "assert") && before.top[0] > 1 {
                let operator = before.state.next_operator.into();
                (out[0], out[1], out[6], out[7]) = (1, operator, 1, operator);
            }
        }),
        fault("`yield` goes on", |before, _, out| {
            if before.state.effect == 0 && out[0] == 11 {
                (out[0], out[1], out[6], out[7]) = (0, 0, 0, before.state.effect_operator.into());
            }
        }),
    ]
}
