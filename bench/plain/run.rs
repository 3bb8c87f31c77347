//! A whole run: sizes, steps against a budget, and a record of 16 bytes for each step.

use super::decode::{decode, Instruction};
use super::lanes::State;
use super::marks::set_in;
use super::step::{Done, Machine, Scratch};
use super::{Refusal, THREADS};

/// The sizes that 01 allows.
const MOST_CODE: usize = 8192;
const MOST_REGISTERS: usize = 128;
const UNIFORMS: usize = 256;
const MOST_SPECIALS: usize = 256;
const MOST_STEPS: usize = 4096;
const RECORD: usize = 16;

#[derive(Clone, Copy, Debug, PartialEq, Eq)]
pub enum Ending {
    Finished,
    Spent,
    Refused(Refusal),
}

/// How a run ended, after how many steps, at which address and with which mask.
#[derive(Clone, Copy, Debug, PartialEq, Eq)]
pub struct Answer {
    pub ending: Ending,
    pub steps: usize,
    pub address: usize,
    pub mask: u32,
}

/// Runs the kernel `code` from `start`. Register r of thread t is word 32 x r + t of `registers`; special registers likewise. The mark of
/// half h of thread t is byte 32 x h + t of `marks`.
#[allow(clippy::too_many_arguments)]
pub fn run(
    code: &[u8],
    registers: &mut [u32],
    marks: &mut [u8],
    uniforms: &[u32],
    specials: &[u32],
    start: usize,
    mask: u32,
    budget: usize,
    records: &mut [u8],
) -> Answer {
    let lent = [registers.len(), marks.len(), uniforms.len(), specials.len()];
    if !lengths_fit(lent) || !call_fits(code.len(), start, budget, records.len()) {
        return Answer { ending: Ending::Refused(1), steps: 0, address: start, mask };
    }
    let (registers, _) = registers.as_chunks_mut();
    let (marks, _) = marks.as_chunks_mut();
    let (specials, _) = specials.as_chunks();
    let (records, _) = records.as_chunks_mut();
    let state = State { registers, marks, uniforms, specials, mask, active: set_in(mask) };
    let mut machine = Machine { state, scratch: Scratch::new() };
    let (ending, steps, address) = machine.run(code, start, &mut records[..budget]);
    Answer { ending, steps, address, mask: machine.state.mask }
}

/// Registers, marks, uniforms and special registers have lengths that 01 and the change requests allow: two marks to a register's word.
fn lengths_fit([registers, marks, uniforms, specials]: [usize; 4]) -> bool {
    registers.is_multiple_of(THREADS)
        && (1..=MOST_REGISTERS).contains(&(registers / THREADS))
        && marks == 2 * registers
        && uniforms == UNIFORMS
        && specials.is_multiple_of(THREADS)
        && specials / THREADS <= MOST_SPECIALS
}

/// Code, start address, budget and room for records are as 01 allows.
fn call_fits(code: usize, start: usize, budget: usize, records: usize) -> bool {
    code <= MOST_CODE
        && start.is_multiple_of(2)
        && start <= code
        && (1..=MOST_STEPS).contains(&budget)
        && records >= RECORD * budget
}

impl Machine<'_> {
    /// Steps until the address is the code's length, the records are used up or an instruction is refused.
    fn run(&mut self, code: &[u8], start: usize, records: &mut [[u8; RECORD]]) -> (Ending, usize, usize) {
        let mut address = start;
        for (steps, record) in records.iter_mut().enumerate() {
            if address == code.len() {
                return (Ending::Finished, steps, address);
            }
            match self.next(code, address, record) {
                Ok(next) => address = next,
                Err(refusal) => return (Ending::Refused(refusal), steps, address),
            }
        }
        let ending = if address == code.len() { Ending::Finished } else { Ending::Spent };
        (ending, records.len(), address)
    }

    /// Does the instruction at `address`, writes its record and answers the next address.
    #[inline]
    fn next(&mut self, code: &[u8], address: usize, record: &mut [u8; RECORD]) -> Result<usize, Refusal> {
        let Instruction { length, kind, .. } = decode(&code[address..])?;
        let before = self.state.mask;
        let (class, next) = match self.step(&kind)? {
            Done::Data => (1, address + length),
            Done::Mask => (2, address + length),
            Done::Jump(None) => (3, address + length),
            Done::Jump(Some(off)) => (4, target(address, off, code.len()).ok_or(7u8)?),
        };
        let head = address as u32 | (length as u32) << 16 | class << 24;
        let words = [head, before, self.state.mask, 0];
        for (bytes, word) in record.as_chunks_mut().0.iter_mut().zip(words) {
            *bytes = word.to_le_bytes();
        }
        Ok(next)
    }
}

/// Where a taken jump goes, counted from its first byte, if the address is even and not beyond the code's end.
fn target(address: usize, off: i32, length: usize) -> Option<usize> {
    let target = address.checked_add_signed(off as isize)?;
    (target % 2 == 0 && target <= length).then_some(target)
}
