//! The marks that are lent to random runs, a byte for each half and thread: most runs have none, or few, as otherwise they would make no step.

use crate::random::Random;

const THREADS: usize = 32;

/// Marks for so many registers, at the start of a run with this mask.
pub fn marks_of(random: &mut Random, registers: usize, mask: u32) -> Vec<u8> {
    let mut marks = vec![0; 2 * THREADS * registers];
    match random.below(16) {
        0 => few(random, &mut marks),
        1 => one_half(random, &mut marks),
        2 => first_half(random, &mut marks),
        3 | 4 => inactive(random, &mut marks, mask),
        5 => marks.fill_with(|| mark(random)),
        _ => {}
    }
    marks
}

/// Any byte; 0 is clear and every other value marked.
pub fn mark(random: &mut Random) -> u8 {
    let any = random.number() as u8;
    random.pick(&[0, 1, 2, 128, 255, any])
}

fn few(random: &mut Random, marks: &mut [u8]) {
    for _ in 0..1 + random.below(8) {
        let at = random.below(marks.len());
        marks[at] = mark(random);
    }
}

/// One half, in each thread.
fn one_half(random: &mut Random, marks: &mut [u8]) {
    let half = random.below(marks.len() / THREADS);
    marks[THREADS * half..][..THREADS].fill_with(|| mark(random));
}

/// r0l, in a few threads.
fn first_half(random: &mut Random, marks: &mut [u8]) {
    few(random, &mut marks[..THREADS]);
}

/// Every half, in threads that are not active.
fn inactive(random: &mut Random, marks: &mut [u8], mask: u32) {
    // a mask instruction reads r0l in every thread
    let first = if random.once_in(4) { 0 } else { THREADS };
    for (at, byte) in marks.iter_mut().enumerate().skip(first) {
        if mask & 1 << (at % THREADS) == 0 {
            *byte = mark(random);
        }
    }
}
