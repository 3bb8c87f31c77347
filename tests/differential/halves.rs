//! The register halves that an instruction names, by its byte form, and instructions in a row that heed what those before discarded.

use crate::instructions::{encoded, fields, Limits};
use crate::plain::find::Form;
use crate::plain::form::{Fields, Operand};
use crate::random::Random;
use std::ops::Range;

/// The discard hint in the byte form.
pub const DISCARD: u8 = 2;
/// The kinds of pop_exec and else_icmp, between which those of the mask instructions are.
const MASKS: Range<u8> = 19..23;
/// The halves of 128 registers.
const HALVES: usize = 256;
/// How often an instruction is drawn again.
const TRIES: usize = 12;
/// One instruction in so many is taken as it is drawn.
const HEEDLESS: usize = 40;

/// The halves of a register half, a register or a pair; uniforms and immediates have none.
pub fn halves(operand: &Operand) -> Range<usize> {
    let number = operand.number as usize;
    match operand.kind {
        1 => number..number + 1,
        2 => 2 * number..2 * number + 2,
        3 => 2 * number..2 * number + 4,
        _ => 0..0,
    }
}

/// The halves of the sources, one after the other.
pub fn of_sources(fields: &Fields) -> Vec<usize> {
    fields.sources.iter().flat_map(halves).collect()
}

/// The halves of the sources that discard.
pub fn discarded(fields: &Fields) -> Vec<usize> {
    fields.sources.iter().filter(|source| source.hint == DISCARD).flat_map(halves).collect()
}

/// A mask instruction: it reads and writes r0l, which is half 0.
pub fn is_mask(fields: &Fields) -> bool {
    MASKS.contains(&fields.kind)
}

/// Which halves instructions in a row have discarded and not written since, all threads being active.
pub struct Row([bool; HALVES]);

impl Row {
    pub fn new() -> Row {
        Row([false; HALVES])
    }

    /// The bytes of a next instruction. Most do not read what is discarded, nor discard r0l, as far as that can be had.
    pub fn next(&mut self, random: &mut Random, form: &Form, limits: Limits) -> Vec<u8> {
        let tries = if random.once_in(HEEDLESS) { 0 } else { TRIES };
        let mut drawn = fields(random, form, limits);
        for _ in 0..tries {
            if self.ends(&drawn) {
                drawn = fields(random, form, limits);
            }
        }
        self.follow(&drawn);
        encoded(&drawn)
    }

    /// Whether the run would end with these fields, or with the next mask instruction.
    fn ends(&self, fields: &Fields) -> bool {
        let discards_r0l = !is_mask(fields) && discarded(fields).contains(&0) && !halves(&fields.d).contains(&0);
        discards_r0l || of_sources(fields).iter().any(|half| self.0[*half])
    }

    fn follow(&mut self, fields: &Fields) {
        discarded(fields).into_iter().for_each(|half| self.0[half] = true);
        halves(&fields.d).for_each(|half| self.0[half] = false);
        if is_mask(fields) {
            self.0[0] = false;
        }
    }
}
