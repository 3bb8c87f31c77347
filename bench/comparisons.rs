//! Comparisons by the plain Rust program, each with the line that it must give.

use crate::plain::calls;
use crate::plain::compare::compare;

const MOV16: [u8; 4] = [0x62, 0x04, 0x34, 0x12];
const MOV32: [u8; 6] = [0x62, 0x05, 0x78, 0x56, 0x34, 0x12];
const LONG_MOV16: [u8; 6] = [0x62, 0x84, 0x34, 0x12, 0x00, 0x00];
/// The iadd of docs/byte-form.md: A is a register with the discard hint, B a uniform half.
const IADD: [u8; 8] = [0x8E, 0x0D, 0xCA, 0xCE, 0x16, 0x00, 0x10, 0x00];
// in these all operands are immediates 0, and r0l if any
const IMADD: [u8; 8] = [0x1E, 0, 0, 0, 0, 0, 0, 0];
const BFI: [u8; 8] = [0x2E, 0, 0, 0, 0, 0, 0, 0];
const BITOP: [u8; 6] = [0x7E, 0, 0, 0, 0, 0];
const POP_EXEC: [u8; 6] = [0x52, 0x06, 0, 0, 0, 0];
const IF_ICMP: [u8; 6] = [0x52, 0, 0, 0, 0, 0];
const STOP: [u8; 2] = [0x88, 0x00];
const NO_MEANING: [u8; 4] = [0x72, 0x0B, 0x05, 0x00];

#[track_caller]
fn gives(first: &[u8], second: &[u8], line: &str) {
    assert_eq!(compare(first, second).line(), line);
}

/// The code with some bits turned round, as the second kernel.
#[track_caller]
fn turned(code: &[u8], bits: &[usize], line: &str) {
    let mut other = code.to_vec();
    for bit in bits {
        other[bit / 8] ^= 1 << (bit % 8);
    }
    gives(code, &other, &format!("0000 {line}"));
}

#[test]
fn equal_kernels_are_the_same() {
    gives(&[], &[], "same");
    gives(&MOV16, &MOV16, "same");
    let long = MOV16.repeat(2048);
    gives(&long, &long, "same");
}

#[test]
fn a_kernel_that_ends_first_is_told() {
    gives(&[], &MOV16, "0000 ended 1");
    gives(&MOV16, &[], "0000 ended 2");
    gives(&[MOV16, MOV16].concat(), &MOV16, "0004 ended 2");
}

#[test]
fn the_address_is_that_of_the_instruction() {
    let code = |last: u8| [&MOV16[..], &MOV32, &MOV32[..5], &[last]].concat();
    gives(&code(0x12), &code(0x13), "000A immediate");
}

#[test]
fn instruction_and_length_come_first() {
    gives(&[&MOV16[..], &MOV16].concat(), &[&MOV32[..], &MOV16].concat(), "0000 instruction");
    gives(&MOV16, &LONG_MOV16, "0000 length");
    gives(&[0x62, 0x06, 0x35, 0x12], &LONG_MOV16, "0000 length");
    turned(&IADD, &[4], "instruction");
    // bit 15 is L in the movs alone
    turned(&BFI, &[15], "instruction");
}

#[test]
fn operands_are_what_they_name() {
    turned(&LONG_MOV16, &[44], "destination");
    turned(&IADD, &[8], "destination");
    turned(&IADD, &[9], "destination");
    turned(&IADD, &[25], "source A");
    turned(&IADD, &[34], "source B");
    turned(&IADD, &[40, 42], "source A");
    turned(&BFI, &[40], "source C");
    turned(&BFI, &[16, 40], "source A");
    turned(&BFI, &[46], "source C");
    turned(&IADD, &[22], "hint");
    turned(&IADD, &[7], "hint");
    turned(&IADD, &[26], "field 26");
}

#[test]
fn immediates_of_movs_have_their_word() {
    turned(&LONG_MOV16, &[16, 7, 47], "immediate");
    turned(&MOV32, &[47], "immediate");
    gives(&[0x72, 0x09, 0x05, 0x00], &[0x72, 0x09, 0x05, 0x04], "0000 field 16");
    gives(&[0x00, 0xC0, 0x0C, 0, 0, 0], &[0x00, 0xC0, 0x0C, 0, 0, 0x80], "0000 field 16");
}

#[test]
fn other_fields_come_by_their_lowest_bit() {
    for bit in [6, 26, 27, 38, 39] {
        turned(&IADD, &[bit], &format!("field {bit}"));
        turned(&IADD, &[bit, 52, 7, 63], &format!("field {bit}"));
    }
    turned(&IADD, &[53], "field 39");
    turned(&IMADD, &[50], "field 50");
    // s2 stands above Cs, and s2:s1 begins below it
    turned(&IMADD, &[50, 53], "field 39");
    for bit in [38, 51, 63] {
        turned(&BFI, &[bit, 62], "field 38");
    }
    for bit in [26, 27, 38, 39] {
        turned(&BITOP, &[bit, 46], &format!("field {bit}"));
    }
    turned(&BITOP, &[39, 38, 27], "field 27");
}

#[test]
fn a_condition_is_two_fields() {
    turned(&IF_ICMP, &[8], "field 8");
    turned(&IF_ICMP, &[13], "field 13");
    turned(&IF_ICMP, &[15, 8], "field 8");
    turned(&IF_ICMP, &[12, 14], "field 11");
    turned(&IF_ICMP, &[13, 14], "refused 4 2");
    turned(&POP_EXEC, &[11], "field 11");
}

#[test]
fn hints_come_before_kept_bits() {
    turned(&POP_EXEC, &[7], "hint");
    turned(&POP_EXEC, &[7, 8], "hint");
    turned(&POP_EXEC, &[8], "bit");
    turned(&IF_ICMP, &[47, 7], "hint");
    gives(&LONG_MOV16, &[0x62, 0x84, 0x34, 0x12, 0xFF, 0xCF], "0000 bit");
}

#[test]
fn a_refusal_comes_before_all_else_at_its_address() {
    let then = |end: &[u8]| [&MOV16, end].concat();
    gives(&then(&STOP), &then(&NO_MEANING), "0004 refused 3 1");
    gives(&then(&NO_MEANING), &then(&STOP), "0004 refused 4 1");
    gives(&then(&[0x62]), &then(&[0x62]), "0004 refused 2 1");
    gives(&then(&MOV16), &then(&STOP), "0004 refused 3 2");
    gives(&then(&[]), &then(&NO_MEANING), "0004 refused 4 2");
    gives(&then(&[0x62, 0x04, 0x34]), &then(&[]), "0004 refused 2 1");
    // a difference before it
    gives(&then(&STOP), &[0x62, 0x06, 0x34, 0x12, 0x88, 0x00], "0000 destination");
}

#[test]
fn a_kernel_that_is_too_long_is_refused_before_the_walks() {
    let (longest, long) = (MOV16.repeat(2048), vec![0x62; 8193]);
    gives(&longest, &longest[..8188], "1FFC ended 2");
    gives(&long, &MOV16, "0000 refused 1 1");
    gives(&STOP, &long, "0000 refused 1 2");
    gives(&long, &long, "0000 refused 1 1");
}

#[test]
fn the_line_needs_its_room() {
    for (first, second, text) in [(&MOV16, &MOV16, "same"), (&MOV16, &NO_MEANING, "0000 refused 4 2")] {
        let mut room = [0xA5; 20];
        assert_eq!(calls::compare(first, second, &mut room[..text.len() - 1]), -1);
        assert_eq!(room, [0xA5; 20]);
        assert_eq!(calls::compare(first, second, &mut room[..text.len()]), text.len() as i32);
        assert_eq!(room[..text.len()], *text.as_bytes());
        assert!(room[text.len()..].iter().all(|byte| *byte == 0xA5));
    }
}
