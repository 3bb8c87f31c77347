//! The shift, bitfield and bit manipulation instructions, for one thread's values.
//!
//! A source here is at most 32 bits wide, and so is a destination: the low 32 bits of a result decide. Shift amounts run from 0
//! to 127 and are never cut to five or six bits.

/// The shift amount that a value gives.
#[inline]
fn amount(value: u64) -> u32 {
    (value & 0x7F) as u32
}

#[inline]
fn shl(value: u64, amount: u32) -> u64 {
    value.checked_shl(amount).unwrap_or(0)
}

#[inline]
fn shr(value: u64, amount: u32) -> u64 {
    value.checked_shr(amount).unwrap_or(0)
}

/// The mask that `m` gives: that many ones, or 32 where it is 0.
pub fn ones(m: u8) -> u64 {
    if m == 0 {
        0xFFFF_FFFF
    } else {
        (1 << m) - 1
    }
}

#[inline]
pub fn bfi(mask: u64, a: u64, b: u64, c: u64) -> u64 {
    a & !shl(mask, amount(c)) | shl(b & mask, amount(c))
}

#[inline]
pub fn bfeil(mask: u64, a: u64, b: u64, c: u64) -> u64 {
    a & !mask | shr(b, amount(c)) & mask
}

#[inline]
pub fn extr(mask: u64, a: u64, b: u64, c: u64) -> u64 {
    shr(b << 32 | a, amount(c)) & mask
}

/// `(b << amount) >> 32` leaves 64 bits only where the amount is above 32; from there on it is a shift to the left.
#[inline]
pub fn shlhi(mask: u64, a: u64, b: u64, c: u64) -> u64 {
    let amount = amount(c);
    let left = amount.saturating_sub(32);
    let high = if left == 0 { b << amount >> 32 } else { shl(b, left) };
    let mask = shl(mask, left);
    high & mask | a & !mask
}

#[inline]
pub fn shrhi(mask: u64, a: u64, b: u64, c: u64) -> u64 {
    let amount = amount(c);
    let mask = mask << 32 >> amount.min(32);
    shr(b << 32, amount) & mask | a & !mask
}

/// `a` is sign-extended already.
#[inline]
pub fn asr(a: u64, b: u64) -> u64 {
    (a as i64 >> amount(b).min(63)) as u64
}

/// `a` is sign-extended already, from at most 32 bits.
#[inline]
pub fn asrh(a: u64, b: u64) -> u64 {
    ((a << 32) as i64 >> amount(b).min(63)) as u64
}

/// The truth table as four masks, for `bitop`. The two tables that the document calls undefined give `a`.
pub fn truth([tt0, tt1, tt2, tt3]: [bool; 4]) -> [u64; 4] {
    let undefined = tt0 == tt1 && tt2 == tt3 && tt0 != tt2;
    let table = if undefined { [false, true, false, true] } else { [tt0, tt1, tt2, tt3] };
    table.map(|set| if set { u64::MAX } else { 0 })
}

#[inline]
pub fn bitop(truth: [u64; 4], a: u64, b: u64) -> u64 {
    truth[0] & !a & !b | truth[1] & a & !b | truth[2] & !a & b | truth[3] & a & b
}

#[inline]
pub fn bitrev(a: u64) -> u64 {
    (a as u32).reverse_bits() as u64
}

#[inline]
pub fn popcount(a: u64) -> u64 {
    (a as u32).count_ones() as u64
}

/// The number of the highest set bit; -1 where none is set.
#[inline]
pub fn ffs(a: u64) -> u64 {
    (31 - (a as u32).leading_zeros() as i64) as u64
}
