//! The byte form and the encoder of the plain Rust program: the two examples of docs/byte-form.md, and reasons for 8 and 9.

use crate::plain::calls::{decode, encode};
use crate::plain::form::{Fields, Operand, FORM_BYTES};

const LONG_MOV: [u8; 6] = [0x62, 0x84, 0x34, 0x12, 0xFF, 0xCF];
const IADD: [u8; 8] = [0x8E, 0x0D, 0xCA, 0xCE, 0x16, 0x00, 0x10, 0x00];
const OLD: u8 = 0xA5;

fn form_of(code: &[u8]) -> [u8; FORM_BYTES] {
    let mut form = [OLD; FORM_BYTES];
    assert_eq!(decode(code, 0, &mut form), code.len() as i32);
    form
}

/// The form's fields, changed.
fn changed(code: &[u8], change: impl Fn(&mut Fields)) -> [u8; FORM_BYTES] {
    let mut fields = Fields::from_bytes(&form_of(code));
    change(&mut fields);
    fields.to_bytes()
}

#[track_caller]
fn refused(form: &[u8], length: usize, number: i32) {
    let mut out = [OLD; 12];
    assert_eq!(encode(form, &mut out[..length]), -number);
    assert_eq!(out, [OLD; 12]);
}

#[track_caller]
fn encodes_to(form: &[u8], code: &[u8]) {
    let mut out = [OLD; 12];
    assert_eq!(encode(form, &mut out), code.len() as i32);
    assert_eq!(out[..code.len()], *code);
    assert!(out[code.len()..].iter().all(|byte| *byte == OLD));
}

#[test]
fn the_long_mov16_has_the_form_of_the_page() {
    let mut form = [0; FORM_BYTES];
    form[..8].copy_from_slice(&[1, 6, 1, 0, 1, 0, 2, 0]);
    form[20..22].copy_from_slice(&[0x34, 0x12]);
    form[44..46].copy_from_slice(&[0xFF, 0xCF]);
    assert_eq!(form_of(&LONG_MOV), form);
    encodes_to(&form, &LONG_MOV);
}

#[test]
fn iadd_has_the_form_of_the_page() {
    let mut form = [0; FORM_BYTES];
    form[..16].copy_from_slice(&[4, 8, 0, 0, 2, 1, 3, 0, 2, 2, 5, 0, 4, 0, 0x2C, 1]);
    form[25..30].copy_from_slice(&[1, 1, 0, 0, 2]);
    assert_eq!(form_of(&IADD), form);
    encodes_to(&form, &IADD);
}

#[test]
fn a_short_mov_has_no_dx() {
    let short = [0x62, 0x04, 0x34, 0x12];
    refused(&changed(&short, |f| f.d.number = 66), 12, 8);
    refused(&changed(&short, |f| f.kept = 1 << 32), 12, 8);
    encodes_to(&changed(&short, |f| (f.l, f.length, f.d.number) = (1, 6, 66)), &[0x62, 0x84, 0x34, 0x12, 0x00, 0x10]);
}

#[test]
fn fields_that_are_too_wide_are_refused() {
    refused(&changed(&LONG_MOV, |f| f.l = 7), 12, 8);
    refused(&changed(&LONG_MOV, |f| f.immediate = 0x1_0000), 12, 8);
    refused(&changed(&LONG_MOV, |f| f.kept |= 1 << 44), 12, 8);
    refused(&changed(&IADD, |f| f.shift = 9), 12, 8);
    refused(&changed(&IADD, |f| f.negate = 2), 12, 8);
}

#[test]
fn operands_that_their_place_cannot_hold_are_refused() {
    refused(&changed(&LONG_MOV, |f| f.d = Operand { kind: 3, hint: 0, number: 2 }), 12, 8);
    refused(&changed(&LONG_MOV, |f| f.d.hint = 2), 12, 8);
    refused(&changed(&IADD, |f| f.d.number = 128), 12, 8);
    refused(&changed(&IADD, |f| f.sources[1].hint = 1), 12, 8);
    refused(&changed(&IADD, |f| f.sources[1].number = 512), 12, 8);
    refused(&changed(&IADD, |f| f.sources[0] = Operand { kind: 6, hint: 0, number: 255 }), 12, 8);
}

#[test]
fn a_condition_without_a_meaning_is_refused() {
    let compare = [0x52, 0x28, 0x42, 0x00, 0x01, 0x00];
    encodes_to(&form_of(&compare), &compare);
    for cc in [3, 7, 8] {
        refused(&changed(&compare, |f| f.cc = cc), 12, 8);
    }
}

#[test]
fn bytes_that_spell_nothing_are_refused() {
    refused(&[0; FORM_BYTES], 12, 8);
    refused(&form_of(&IADD)[..47], 12, 8);
    refused(&changed(&IADD, |f| f.length = 6), 12, 8);
    refused(&changed(&IADD, |f| f.reserved[1] = 1), 12, 8);
    refused(&changed(&IADD, |f| f.signs[2] = 1), 12, 8);
    refused(&changed(&IADD, |f| f.kind = 23), 12, 8);
}

#[test]
fn eight_comes_before_nine() {
    refused(&form_of(&IADD), 7, 9);
    refused(&changed(&IADD, |f| f.shift = 9), 0, 8);
}

#[test]
fn a_short_buffer_is_refused_only_where_there_is_a_form_to_write() {
    const NO_MEANING: [u8; 4] = [0x72, 0x0B, 0x05, 0x00];
    let mut form = [OLD; FORM_BYTES];
    for room in [0, 47, 48] {
        let form = &mut form[..room];
        assert_eq!(decode(&IADD, 9, form), -1);
        assert_eq!(decode(&IADD, 8, form), -2);
        assert_eq!(decode(&IADD[..7], 0, form), -2);
        assert_eq!(decode(&[0x88, 0x00], 0, form), -3);
        assert_eq!(decode(&NO_MEANING, 0, form), -4);
    }
    assert_eq!(decode(&IADD, 0, &mut form[..0]), -1);
    assert_eq!(decode(&IADD, 0, &mut form[..47]), -1);
    assert_eq!(form, [OLD; FORM_BYTES]);
    assert_eq!(decode(&IADD, 0, &mut form), 8);
}
