//! The calls of the C interface, on slices: the same numbers and the same bytes as its exported functions must give.

use super::compare::compare as compared;
use super::decode::decode as decoded;
use super::encode::encode as encoded;
use super::form::{Fields, FORM_BYTES};
use super::hex::{read, write, MOST_CODE};
use super::run::{run as words_run, Answer, Ending};

/// The bytes of a run's answer.
pub const ANSWER_BYTES: usize = 24;
/// The bytes of the number of a row.
pub const ROW_BYTES: usize = 8;

/// What is lent to a run, registers, uniforms and special registers as little-endian bytes.
pub struct Call<'a> {
    pub code: &'a [u8],
    pub registers: &'a mut [u8],
    pub marks: &'a mut [u8],
    pub uniforms: &'a [u8],
    pub specials: &'a [u8],
    pub start: usize,
    pub mask: u32,
    pub budget: usize,
    pub records: &'a mut [u8],
    pub answer: &'a mut [u8],
}

/// Decodes the instruction at `offset`: its length, with its form at the start of `instruction`, or minus a refusal. A buffer is too
/// short only where there is a form to write.
pub fn decode(code: &[u8], offset: usize, instruction: &mut [u8]) -> i32 {
    if offset > code.len() {
        return -1;
    }
    match decoded(&code[offset..]) {
        Err(refusal) => -(refusal as i32),
        Ok(_) if instruction.len() < FORM_BYTES => -1,
        Ok(found) => {
            instruction[..FORM_BYTES].copy_from_slice(&Fields::of(&found).to_bytes());
            found.length as i32
        }
    }
}

/// Encodes the instruction of a byte form: the length of the encoding, which stands at the start of `out`, or minus a refusal.
pub fn encode(instruction: &[u8], out: &mut [u8]) -> i32 {
    match encoded(instruction) {
        None => -8,
        Some((_, length)) if out.len() < length => -9,
        Some((word, length)) => {
            out[..length].copy_from_slice(&word.to_le_bytes()[..length]);
            length as i32
        }
    }
}

/// Runs a kernel: 0 where it finished or is spent, otherwise minus a refusal. With refusal 1 nothing is written.
pub fn run(call: Call) -> i32 {
    let in_words = [call.registers.len(), call.uniforms.len(), call.specials.len()].iter().all(|bytes| bytes % 4 == 0);
    if !in_words || call.answer.len() < ANSWER_BYTES {
        return -1;
    }
    let mut registers = words(call.registers);
    let (uniforms, specials) = (words(call.uniforms), words(call.specials));
    let (marks, start, mask, budget) = (call.marks, call.start, call.mask, call.budget);
    let answer = words_run(call.code, &mut registers, marks, &uniforms, &specials, start, mask, budget, call.records);
    if answer.ending == Ending::Refused(1) {
        return -1;
    }
    for (bytes, word) in call.registers.chunks_exact_mut(4).zip(registers) {
        bytes.copy_from_slice(&word.to_le_bytes());
    }
    call.answer[..ANSWER_BYTES].copy_from_slice(&answer_bytes(&answer));
    -(ending_numbers(answer.ending).1 as i32)
}

/// Compares two kernels: the length of the line, which stands at the start of `line`, or -1 where it has no room there.
pub fn compare(first: &[u8], second: &[u8], line: &mut [u8]) -> i32 {
    let text = compared(first, second).line();
    match line.get_mut(..text.len()) {
        None => -1,
        Some(room) => {
            room.copy_from_slice(text.as_bytes());
            text.len() as i32
        }
    }
}

/// Reads a kernel from Intel HEX: its length, with its bytes at the start of `code`, or minus a refusal. With 12 to 14 the number of the
/// bad row is at the start of `row`, if it has room; otherwise nothing is written.
pub fn hex_read(text: &[u8], code: &mut [u8], row: &mut [u8]) -> i32 {
    match read(text) {
        Err(bad) => {
            if let Some(number) = row.get_mut(..ROW_BYTES) {
                number.copy_from_slice(&(bad.row as u64).to_le_bytes());
            }
            -(bad.fault.refusal() as i32)
        }
        Ok(kernel) if kernel.len() > MOST_CODE || kernel.len() > code.len() => -1,
        Ok(kernel) => {
            code[..kernel.len()].copy_from_slice(&kernel);
            kernel.len() as i32
        }
    }
}

/// Writes a kernel as Intel HEX: the length of the text, which stands at the start of `text`, or -1 where the kernel is too long or the
/// text has no room there.
pub fn hex_write(code: &[u8], text: &mut [u8]) -> i32 {
    match write(code) {
        Some(written) if written.len() <= text.len() => {
            text[..written.len()].copy_from_slice(&written);
            written.len() as i32
        }
        _ => -1,
    }
}

pub fn words(bytes: &[u8]) -> Vec<u32> {
    bytes.chunks_exact(4).map(|word| u32::from_le_bytes([word[0], word[1], word[2], word[3]])).collect()
}

/// How a run ended, and its refusal or 0.
fn ending_numbers(ending: Ending) -> (u32, u32) {
    match ending {
        Ending::Finished => (0, 0),
        Ending::Spent => (1, 0),
        Ending::Refused(refusal) => (2, refusal as u32),
    }
}

fn answer_bytes(answer: &Answer) -> [u8; ANSWER_BYTES] {
    let (ending, refusal) = ending_numbers(answer.ending);
    let mut bytes = [0; ANSWER_BYTES];
    let words = [ending, refusal, answer.steps as u32, answer.mask];
    bytes[..16].copy_from_slice(words.map(u32::to_le_bytes).as_flattened());
    bytes[16..].copy_from_slice(&(answer.address as u64).to_le_bytes());
    bytes
}
