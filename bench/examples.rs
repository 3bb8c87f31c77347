//! The bench examples of 01, run by the plain Rust program, those of the byte form (`forms`) and of comparisons
//! (`comparisons`). `rustc --test` builds them; each is a test.

#![cfg(test)]
#![allow(dead_code)]

mod assemble;
mod comparisons;
mod forms;
mod plain;

use assemble::{Asr, Code, Op::*};
use plain::{run, Answer, Ending};

const ALL: u32 = u32::MAX;
const OLD: u32 = 0xCAFE_BABE;

/// A run of one step's budget with `n` registers that all hold OLD and clear marks, and what it left. None of these discards.
fn one_step(code: &[u8], n: usize, k: usize, mask: u32) -> (Answer, Vec<u32>, [u8; 16]) {
    let mut registers = vec![OLD; 32 * n];
    let mut marks = vec![0; 64 * n];
    let specials: Vec<u32> = (0..32 * k as u32).map(|j| j.wrapping_mul(0x0101_0101)).collect();
    let mut records = [0xA5; 16];
    let answer = run(code, &mut registers, &mut marks, &[0; 256], &specials, 0, mask, 1, &mut records);
    assert_eq!(marks, vec![0; 64 * n]);
    (answer, registers, records)
}

/// The code of one instruction.
fn code(write: impl Fn(&mut Code)) -> Vec<u8> {
    let mut code = Code::default();
    write(&mut code);
    code.0
}

fn finished(code: &[u8], mask: u32) -> Answer {
    Answer { ending: Ending::Finished, steps: 1, address: code.len(), mask }
}

fn refused(number: u8) -> Answer {
    Answer { ending: Ending::Refused(number), steps: 0, address: 0, mask: ALL }
}

#[test]
fn mov16_writes_the_low_half() {
    let code = [0x62, 0x04, 0x34, 0x12];
    let (answer, registers, records) = one_step(&code, 2, 0, ALL);
    assert_eq!(answer, finished(&code, ALL));
    assert_eq!(registers[..32], [OLD; 32]);
    assert_eq!(registers[32..], [0xCAFE_1234; 32]);
    assert_eq!(records, [0, 0, 4, 1, 0xFF, 0xFF, 0xFF, 0xFF, 0xFF, 0xFF, 0xFF, 0xFF, 0, 0, 0, 0]);
}

#[test]
fn mov32_writes_the_register() {
    let code = [0x62, 0x05, 0x78, 0x56, 0x34, 0x12];
    let (answer, registers, _) = one_step(&code, 2, 0, ALL);
    assert_eq!(answer, finished(&code, ALL));
    assert_eq!(registers[32..], [0x1234_5678; 32]);
}

#[test]
fn the_long_mov16_does_the_same_whatever_its_unknown_bits() {
    for code in [[0x62, 0x84, 0x34, 0x12, 0x00, 0x00], [0x62, 0x84, 0x34, 0x12, 0xFF, 0xCF]] {
        let (answer, registers, records) = one_step(&code, 2, 0, ALL);
        assert_eq!(answer, finished(&code, ALL));
        assert_eq!(registers[32..], [0xCAFE_1234; 32]);
        assert_eq!(records[2], 6);
    }
}

#[test]
fn dx_chooses_r33() {
    let code = [0x62, 0x84, 0x34, 0x12, 0x00, 0x10];
    let (answer, registers, _) = one_step(&code, 34, 0, ALL);
    assert_eq!(answer, finished(&code, ALL));
    assert_eq!(registers[..32 * 33], [OLD; 32 * 33]);
    assert_eq!(registers[32 * 33..], [0xCAFE_1234; 32]);
    let (answer, registers, records) = one_step(&code, 33, 0, ALL);
    assert_eq!(answer, refused(5));
    assert_eq!(registers, [OLD; 32 * 33]);
    assert_eq!(records, [0xA5; 16]);
}

#[test]
fn cut_movs_are_refused() {
    for code in [&[0x62, 0x84, 0x34, 0x12][..], &[0x62, 0x04, 0x34], &[0x62]] {
        assert_eq!(one_step(code, 2, 0, ALL).0, refused(2));
    }
}

#[test]
fn get_sr_takes_special_5_and_69() {
    for (code, special) in [([0x72, 0x09, 0x05, 0x00], 5), ([0x72, 0x09, 0x05, 0x04], 69)] {
        let (answer, registers, _) = one_step(&code, 3, special + 1, ALL);
        assert_eq!(answer, finished(&code, ALL));
        for t in 0..32 {
            assert_eq!(registers[64 + t], ((32 * special + t) as u32).wrapping_mul(0x0101_0101));
        }
        assert_eq!(one_step(&code, 3, special, ALL).0, refused(6));
    }
}

/// asr or asrh of 80000000 hex, 32-bit.
fn shifted(which: Asr, amount: u64) -> u32 {
    let code = code(|code| code.asr(which, Reg(2), Reg(1), Imm(amount)));
    let mut registers = [0x8000_0000; 96];
    let mut marks = [0; 192];
    let answer = run(&code, &mut registers, &mut marks, &[0; 256], &[], 0, ALL, 1, &mut [0; 16]);
    assert_eq!(answer, finished(&code, ALL));
    assert_eq!(marks, [0; 192]);
    assert!(registers[64..].iter().all(|word| *word == registers[64]));
    registers[64]
}

#[test]
fn asr_and_asrh_by_long_amounts() {
    let low = [31, 127, 128].map(|amount| shifted(Asr::Low, amount));
    assert_eq!(low, [0xFFFF_FFFF, 0xFFFF_FFFF, 0x8000_0000]);
    let high = [0, 31, 32, 33, 127].map(|amount| shifted(Asr::High, amount));
    assert_eq!(high, [0, 0, 0x8000_0000, 0xC000_0000, 0xFFFF_FFFF]);
}

#[test]
fn pop_exec_0_makes_the_mask_whatever_it_was() {
    let code = code(|code| code.pop_exec(0));
    for mask in [ALL, 0, 0x8000_0000, 0x1234_5678] {
        let mut registers = [0xBEEF_0000; 32];
        registers[31] |= 3;
        let before = registers;
        let mut marks = [0; 64];
        let answer = run(&code, &mut registers, &mut marks, &[0; 256], &[], 0, mask, 1, &mut [0; 16]);
        assert_eq!(answer, finished(&code, 0x7FFF_FFFF));
        assert_eq!((registers, marks), (before, [0; 64]));
    }
}

#[test]
fn empty_code_is_finished_at_once() {
    let answer = Answer { ending: Ending::Finished, steps: 0, address: 0, mask: ALL };
    assert_eq!(one_step(&[], 1, 0, ALL), (answer, vec![OLD; 32], [0xA5; 16]));
}

#[test]
fn budgets_0_and_4097_are_refused() {
    for budget in [0, 4097] {
        let mut records = vec![0; 16 * 4097];
        let code = [0x62, 4, 0x34, 0x12];
        let answer = run(&code, &mut [OLD; 64], &mut [0; 128], &[0; 256], &[], 0, ALL, budget, &mut records);
        assert_eq!(answer, refused(1));
    }
}

#[test]
fn mask_0_is_a_step_that_writes_nothing() {
    let code = [0x62, 0x04, 0x34, 0x12];
    let (answer, registers, records) = one_step(&code, 2, 0, 0);
    assert_eq!(answer, finished(&code, 0));
    assert_eq!(registers, [OLD; 64]);
    assert_eq!(records, [0, 0, 4, 1, 0, 0, 0, 0, 0, 0, 0, 0, 0, 0, 0, 0]);
}
