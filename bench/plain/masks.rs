//! The execution mask stack instructions: whether a thread compares, and its new r0l, from its r0l and the comparison.

use super::decode::{Condition, Test};
use super::lanes::Lanes;
use super::THREADS;

#[inline]
pub fn pop_exec(v: u64, n: u64) -> u64 {
    v.saturating_sub(n)
}

/// The sum is kept modulo 65536.
#[inline]
pub fn if_icmp(v: u64, n: u64, holds: bool) -> u64 {
    if v != 0 {
        (v + n) & 0xFFFF
    } else {
        !holds as u64
    }
}

#[inline]
pub fn while_icmp(v: u64, n: u64, holds: bool) -> u64 {
    if v >= n {
        v
    } else if holds {
        0
    } else {
        n
    }
}

#[inline]
pub fn else_icmp(v: u64, n: u64, holds: bool) -> u64 {
    match v {
        0 => n,
        1 => !holds as u64,
        _ => v,
    }
}

#[inline]
pub fn if_compares(v: u64, _: u64) -> bool {
    v == 0
}

#[inline]
pub fn while_compares(v: u64, n: u64) -> bool {
    v < n
}

#[inline]
pub fn else_compares(v: u64, _: u64) -> bool {
    v == 1
}

/// Where the condition holds. A value is at most 32 bits wide, so one comparison of signed lanes serves both ways of reading.
pub fn compare(condition: Condition, a: &Lanes, b: &Lanes) -> [bool; THREADS] {
    match condition.test {
        Test::Equal => each(a, b, |a, b| (a == b) != condition.negated),
        Test::Less => each(a, b, |a, b| (a < b) != condition.negated),
        Test::Greater => each(a, b, |a, b| (a > b) != condition.negated),
    }
}

#[inline]
fn each(a: &Lanes, b: &Lanes, holds: impl Fn(i64, i64) -> bool) -> [bool; THREADS] {
    let mut answers = [false; THREADS];
    for t in 0..THREADS {
        answers[t] = holds(a[t] as i64, b[t] as i64);
    }
    answers
}

/// The mask in which exactly the threads are set whose r0l is 0.
pub fn where_zero(r0l: &Lanes) -> u32 {
    let mut mask = 0;
    for (t, v) in r0l.iter().enumerate() {
        mask |= ((*v == 0) as u32) << t;
    }
    mask
}
