//! The proved program, as the exported functions of its static library. A slice crosses as a pointer and its length.

use crate::plain::calls::{words, Call, ANSWER_BYTES};
use crate::plain::{Answer, Ending};

extern "C" {
    pub fn reedtassel_decode(
        code: *const u8,
        code_len: usize,
        offset: usize,
        instruction: *mut u8,
        instruction_len: usize,
    ) -> i32;

    pub fn reedtassel_encode(instruction: *const u8, instruction_len: usize, out: *mut u8, out_len: usize) -> i32;

    pub fn reedtassel_run(
        code: *const u8,
        code_len: usize,
        registers: *mut u8,
        registers_len: usize,
        marks: *mut u8,
        marks_len: usize,
        uniforms: *const u8,
        uniforms_len: usize,
        specials: *const u8,
        specials_len: usize,
        start: usize,
        mask: u32,
        budget: usize,
        records: *mut u8,
        records_len: usize,
        answer: *mut u8,
        answer_len: usize,
    ) -> i32;

    pub fn reedtassel_hex_read(
        text: *const u8,
        text_len: usize,
        code: *mut u8,
        code_len: usize,
        row: *mut u8,
        row_len: usize,
    ) -> i32;

    pub fn reedtassel_hex_write(code: *const u8, code_len: usize, text: *mut u8, text_len: usize) -> i32;
}

// In all of them, every pointer is a slice's own, with its length, and none of the slices that are written overlaps another.

pub fn decode(code: &[u8], offset: usize, instruction: &mut [u8]) -> i32 {
    unsafe { reedtassel_decode(code.as_ptr(), code.len(), offset, instruction.as_mut_ptr(), instruction.len()) }
}

pub fn encode(instruction: &[u8], out: &mut [u8]) -> i32 {
    unsafe { reedtassel_encode(instruction.as_ptr(), instruction.len(), out.as_mut_ptr(), out.len()) }
}

pub fn run(call: Call) -> i32 {
    unsafe {
        reedtassel_run(
            call.code.as_ptr(),
            call.code.len(),
            call.registers.as_mut_ptr(),
            call.registers.len(),
            call.marks.as_mut_ptr(),
            call.marks.len(),
            call.uniforms.as_ptr(),
            call.uniforms.len(),
            call.specials.as_ptr(),
            call.specials.len(),
            call.start,
            call.mask,
            call.budget,
            call.records.as_mut_ptr(),
            call.records.len(),
            call.answer.as_mut_ptr(),
            call.answer.len(),
        )
    }
}

pub fn hex_read(text: &[u8], code: &mut [u8], row: &mut [u8]) -> i32 {
    let (bytes, room) = (code.as_mut_ptr(), code.len());
    unsafe { reedtassel_hex_read(text.as_ptr(), text.len(), bytes, room, row.as_mut_ptr(), row.len()) }
}

pub fn hex_write(code: &[u8], text: &mut [u8]) -> i32 {
    unsafe { reedtassel_hex_write(code.as_ptr(), code.len(), text.as_mut_ptr(), text.len()) }
}

/// A run on words, for the outside vectors: they cross as bytes and come back.
#[allow(clippy::too_many_arguments)]
pub fn run_words(
    code: &[u8],
    registers: &mut [u32],
    marks: &mut [u8],
    uniforms: &[u32],
    specials: &[u32],
    start: usize,
    mask: u32,
    budget: usize,
    records: &mut [u8],
) -> Answer {
    let mut lent = bytes(registers);
    let (uniforms, specials) = (&bytes(uniforms), &bytes(specials));
    let mut left = [0; ANSWER_BYTES];
    let answer = &mut left;
    let given =
        run(Call { code, registers: &mut lent, marks, uniforms, specials, start, mask, budget, records, answer });
    registers.copy_from_slice(&words(&lent));
    if given == -1 {
        return Answer { ending: Ending::Refused(1), steps: 0, address: start, mask };
    }
    answered(given, &left)
}

pub fn bytes(words: &[u32]) -> Vec<u8> {
    words.iter().flat_map(|word| word.to_le_bytes()).collect()
}

/// The answer that a run gave and left.
pub fn answered(given: i32, left: &[u8; ANSWER_BYTES]) -> Answer {
    let number = |at: usize| words(&left[at..at + 4])[0];
    let ending = match number(0) {
        0 => Ending::Finished,
        1 => Ending::Spent,
        _ => Ending::Refused(number(4) as u8),
    };
    assert_eq!(given, -(number(4) as i32), "the run's number and its answer agree");
    let address = number(16) as usize | (number(20) as usize) << 32;
    Answer { ending, steps: number(8) as usize, address, mask: number(12) }
}
