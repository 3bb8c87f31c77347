//! iadd and imadd. What is not saturated is exact modulo two to the 64, hence at every destination's width.

use super::decode::{Iadd, Imadd};
use super::lanes::Lanes;
use super::step::{lanewise2, lanewise3};

/// `a + b`, with `b` negated and shifted first.
pub fn iadd(i: &Iadd, [a, b, _]: &[Lanes; 3], results: &mut Lanes) {
    let widest = i.a.src.from.bit_size().max(i.b.src.from.bit_size()).max(i.d.to.bit_size());
    if i.saturate && i.shift == 0 && widest <= 32 {
        // both are at most 32 bits wide, so the exact sum fits
        let (low, high) = range(i.d.to.bit_size(), i.a.signed || i.b.signed);
        let (low, high) = (low as i64, high as i64);
        return match i.negate {
            false => lanewise2(a, b, results, |a, b| (a as i64 + b as i64).clamp(low, high) as u64),
            true => lanewise2(a, b, results, |a, b| (a as i64 - b as i64).clamp(low, high) as u64),
        };
    }
    match (i.shift < 5, i.negate) {
        (true, false) => lanewise2(a, b, results, |a, b| a.wrapping_add(b << i.shift)),
        (true, true) => lanewise2(a, b, results, |a, b| a.wrapping_sub(b << i.shift)),
        (false, _) => *results = *a,
    }
}

/// `a * b + c`, with `c` negated and shifted first.
pub fn imadd(i: &Imadd, [a, b, c]: &[Lanes; 3], results: &mut Lanes) {
    if i.saturate && i.shift == 0 && i.c.src.from.bit_size() <= 32 && i.d.to.bit_size() <= 32 {
        let (low, high) = range(i.d.to.bit_size(), i.a.signed || i.b.signed || i.c.signed);
        return match i.negate {
            false => lanewise3(a, b, c, results, |a, b, c| (product(a, b) + exact(c)).clamp(low, high) as u64),
            true => lanewise3(a, b, c, results, |a, b, c| (product(a, b) - exact(c)).clamp(low, high) as u64),
        };
    }
    match (i.shift < 5, i.negate) {
        (true, false) => lanewise3(a, b, c, results, |a, b, c| a.wrapping_mul(b).wrapping_add(c << i.shift)),
        (true, true) => lanewise3(a, b, c, results, |a, b, c| a.wrapping_mul(b).wrapping_sub(c << i.shift)),
        (false, _) => lanewise2(a, b, results, |a, b| a.wrapping_mul(b)),
    }
}

/// The integer that a lane of at most 32 bits holds.
fn exact(lane: u64) -> i128 {
    lane as i64 as i128
}

/// The product of two such lanes, which may need 65 bits.
fn product(a: u64, b: u64) -> i128 {
    exact(a) * exact(b)
}

/// The least and the greatest integer of a destination, for saturate_integer.
fn range(bits: u32, signed: bool) -> (i128, i128) {
    if signed {
        (-(1 << (bits - 1)), (1 << (bits - 1)) - 1)
    } else {
        (0, (1 << bits) - 1)
    }
}
