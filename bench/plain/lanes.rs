//! The 32 values of an operand, one for each thread: read as 64-bit lanes, written back at the operand's width.
//!
//! What an operand is, is decided once, outside the loops over the threads; the loops are then plain enough to be vectorised.

use super::marks::{Chosen, Marks};
use super::operand::{Destination, Source};
use super::THREADS;

/// A value for each thread. A signed value stands in two's complement.
pub type Lanes = [u64; THREADS];

/// A 32-bit word for each thread: a register.
pub type Words = [u32; THREADS];

/// What is lent to a run and read or written by its steps, and the mask, as a number and as the threads that are set in it.
pub struct State<'a> {
    pub registers: &'a mut [Words],
    pub marks: &'a mut [Marks],
    pub uniforms: &'a [u32],
    pub specials: &'a [Words],
    pub mask: u32,
    pub active: Chosen,
}

/// Whether a source is sign-extended from its own bit size or read unsigned.
#[derive(Clone, Copy, PartialEq, Eq)]
pub enum Extend {
    Zero,
    Sign,
}

impl From<bool> for Extend {
    fn from(signed: bool) -> Extend {
        if signed {
            Extend::Sign
        } else {
            Extend::Zero
        }
    }
}

impl State<'_> {
    /// Fills `lanes` with the values of a source whose registers are there.
    #[inline]
    pub fn read(&self, source: Source, extend: Extend, lanes: &mut Lanes) {
        let uniform = |number: usize| self.uniforms[number];
        match source {
            Source::Immediate(value) => lanes.fill(value as u64),
            Source::Half(h) => read_half(lanes, &self.registers[h as usize / 2], h % 2 == 1, extend),
            Source::Register(r) => read_whole(lanes, &self.registers[r as usize], extend),
            Source::Pair(r) => read_pair(lanes, &self.registers[r as usize], &self.registers[r as usize + 1]),
            Source::UniformHalf(h) => lanes.fill(half(uniform(h as usize / 2), h % 2 == 1, extend)),
            Source::Uniform(u) => lanes.fill(whole(uniform(u as usize), extend)),
            Source::UniformPair(u) => lanes.fill(joined(uniform(u as usize), uniform(u as usize + 1))),
        }
    }

    /// Stores the values of the threads that are set in `mask`, modulo two to the destination's width.
    #[inline]
    pub fn write(&mut self, to: Destination, mask: u32, values: &Lanes) {
        match to {
            Destination::Half(half) => {
                let words = &mut self.registers[half as usize / 2];
                if half % 2 == 0 {
                    blend(words, mask, values, |old, value| old & 0xFFFF_0000 | value as u32 & 0xFFFF);
                } else {
                    blend(words, mask, values, |old, value| old & 0xFFFF | (value as u32) << 16);
                }
            }
            Destination::Register(register) => {
                blend(&mut self.registers[register as usize], mask, values, |_, value| value as u32);
            }
            Destination::Pair(first) => {
                blend(&mut self.registers[first as usize], mask, values, |_, value| value as u32);
                blend(&mut self.registers[first as usize + 1], mask, values, |_, value| (value >> 32) as u32);
            }
        }
    }
}

/// The low or the high half of a word, extended.
#[inline]
fn half(word: u32, high: bool, extend: Extend) -> u64 {
    let value = if high { word >> 16 } else { word & 0xFFFF };
    match extend {
        Extend::Zero => value as u64,
        Extend::Sign => value as i16 as u64,
    }
}

/// A word, extended.
#[inline]
fn whole(word: u32, extend: Extend) -> u64 {
    match extend {
        Extend::Zero => word as u64,
        Extend::Sign => word as i32 as u64,
    }
}

/// The value of a pair, whose first word holds the low 32 bits.
#[inline]
fn joined(low: u32, high: u32) -> u64 {
    low as u64 | (high as u64) << 32
}

#[inline]
fn read_half(lanes: &mut Lanes, words: &Words, high: bool, extend: Extend) {
    match (high, extend) {
        (false, Extend::Zero) => fill(lanes, words, |word| half(word, false, Extend::Zero)),
        (false, Extend::Sign) => fill(lanes, words, |word| half(word, false, Extend::Sign)),
        (true, Extend::Zero) => fill(lanes, words, |word| half(word, true, Extend::Zero)),
        (true, Extend::Sign) => fill(lanes, words, |word| half(word, true, Extend::Sign)),
    }
}

#[inline]
fn read_whole(lanes: &mut Lanes, words: &Words, extend: Extend) {
    match extend {
        Extend::Zero => fill(lanes, words, |word| whole(word, Extend::Zero)),
        Extend::Sign => fill(lanes, words, |word| whole(word, Extend::Sign)),
    }
}

#[inline]
fn read_pair(lanes: &mut Lanes, low: &Words, high: &Words) {
    for t in 0..THREADS {
        lanes[t] = joined(low[t], high[t]);
    }
}

#[inline]
fn fill(lanes: &mut Lanes, words: &Words, value: impl Fn(u32) -> u64) {
    for t in 0..THREADS {
        lanes[t] = value(words[t]);
    }
}

/// Puts `new(old word, value)` into the words of the threads that are set in `mask`.
#[inline]
fn blend(words: &mut Words, mask: u32, values: &Lanes, new: impl Fn(u32, u64) -> u32) {
    if mask == u32::MAX {
        for t in 0..THREADS {
            words[t] = new(words[t], values[t]);
        }
    } else {
        for t in 0..THREADS {
            let word = new(words[t], values[t]);
            words[t] = if mask & 1 << t != 0 { word } else { words[t] };
        }
    }
}
