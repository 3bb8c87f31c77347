//! What a comparison may say where one bit of an instruction is turned round: for each diagram of document 002, its rows of bits.

use crate::plain::find::{Form, Name};

type Words = &'static [&'static str];

/// The bits from a high one down to a low one, and the words that a difference there may have.
pub type Row = (u32, u32, Words);

const INSTRUCTION: Words = &["instruction"];
const LENGTH: Words = &["length"];
const DESTINATION: Words = &["destination"];
const SOURCE_A: Words = &["source A"];
const SOURCE_B: Words = &["source B"];
const SOURCE_C: Words = &["source C"];
const IMMEDIATE: Words = &["immediate"];
const FIELD_6: Words = &["field 6"];
const FIELD_8: Words = &["field 8"];
const FIELD_11: Words = &["field 11"];
const FIELD_13: Words = &["field 13"];
const FIELD_16: Words = &["field 16"];
const FIELD_26: Words = &["field 26"];
const FIELD_27: Words = &["field 27"];
const FIELD_38: Words = &["field 38"];
const FIELD_39: Words = &["field 39"];
const FIELD_50: Words = &["field 50"];
const HINT: Words = &["hint"];
const BIT: Words = &["bit"];

/// Dt and D. Of a mov's Dt one bit is fixed; L stands beside D.
const D: &[Row] = &[(7, 7, HINT), (8, 8, DESTINATION), (14, 9, DESTINATION)];
const D_OF_MOV: &[Row] = &[(7, 7, HINT), (14, 9, DESTINATION), (15, 15, LENGTH)];
/// A source's number, and its flags, which have its hint too.
const A: &[Row] = &[(21, 16, SOURCE_A), (25, 22, &["source A", "hint"])];
const B: &[Row] = &[(33, 28, SOURCE_B), (37, 34, &["source B", "hint"])];
const C: &[Row] = &[(45, 40, SOURCE_C), (49, 46, &["source C", "hint"])];
/// S; As and N; Bs and s1.
const S: &[Row] = &[(6, 6, FIELD_6)];
const AS_N: &[Row] = &[(26, 26, FIELD_26), (27, 27, FIELD_27)];
const BS_S1: &[Row] = &[(38, 38, FIELD_38), (39, 39, FIELD_39)];
/// Bx, Ax and Dx, in the instructions of six and of eight bytes.
const X_OF_6: &[Row] = &[(41, 40, SOURCE_B), (43, 42, SOURCE_A), (45, 44, DESTINATION)];
const X_OF_8: &[Row] = &[(57, 56, SOURCE_B), (59, 58, SOURCE_A), (61, 60, DESTINATION)];
/// Dt and n of a mask instruction.
const R0L: &[Row] = &[(7, 7, HINT), (12, 11, FIELD_11)];

/// The rows of a diagram. Every bit that stands in none is fixed.
#[rustfmt::skip]
pub fn rows(form: &Form) -> Vec<Row> {
    match form.name {
        Name::Mov16 if form.length == 4 => [D_OF_MOV, &[(31, 16, IMMEDIATE)]].concat(),
        Name::Mov16 => [D_OF_MOV, &[(31, 16, IMMEDIATE), (43, 32, BIT), (45, 44, DESTINATION), (47, 46, BIT)]].concat(),
        Name::Mov32 if form.length == 6 => [D_OF_MOV, &[(47, 16, IMMEDIATE)]].concat(),
        Name::Mov32 => [D_OF_MOV, &[(47, 16, IMMEDIATE), (59, 48, BIT), (61, 60, DESTINATION), (63, 62, BIT)]].concat(),
        Name::GetSr => [D, &[(21, 16, FIELD_16), (25, 22, BIT), (27, 26, FIELD_16), (29, 28, DESTINATION), (31, 30, BIT)]].concat(),
        Name::Iadd => [S, D, A, AS_N, B, BS_S1, X_OF_6, &[(51, 46, BIT), (53, 52, FIELD_39), (63, 54, BIT)]].concat(),
        Name::Imadd => [S, D, A, AS_N, B, BS_S1, C, X_OF_8,
            &[(50, 50, FIELD_50), (51, 51, BIT), (53, 52, FIELD_39), (55, 54, SOURCE_C), (63, 62, BIT)]].concat(),
        Name::Bfi | Name::Bfeil | Name::Extr | Name::Shlhi | Name::Shrhi => [D, A, B, C, X_OF_8,
            &[(39, 38, FIELD_38), (51, 50, FIELD_38), (53, 52, BIT), (55, 54, SOURCE_C), (62, 62, BIT), (63, 63, FIELD_38)]].concat(),
        Name::Asr | Name::Asrh => [D, A, B, X_OF_8, &[(55, 38, BIT), (63, 62, BIT)]].concat(),
        Name::Bitop => [D, A, B, X_OF_6,
            &[(26, 26, FIELD_26), (27, 27, FIELD_27), (38, 38, FIELD_38), (39, 39, FIELD_39), (47, 46, BIT)]].concat(),
        Name::Bitrev | Name::Popcount | Name::Ffs => [D, A,
            &[(41, 40, BIT), (43, 42, SOURCE_A), (45, 44, DESTINATION), (47, 46, BIT)]].concat(),
        Name::JmpExecAny | Name::JmpExecNone => vec![(47, 16, FIELD_16)],
        Name::PopExec => [R0L, &[(8, 8, BIT)]].concat(),
        Name::IfIcmp | Name::WhileIcmp | Name::ElseIcmp => [R0L, A, B,
            &[(8, 8, FIELD_8), (15, 13, FIELD_13), (41, 40, SOURCE_B), (43, 42, SOURCE_A), (47, 46, BIT)]].concat(),
    }
}

/// The words of a difference, in the order of the comparison.
#[rustfmt::skip]
const ORDER: [&str; 19] = [
    "instruction", "length", "destination", "source A", "source B", "source C", "immediate", "field 6", "field 8", "field 11", "field 13",
    "field 16", "field 26", "field 27", "field 38", "field 39", "field 50", "hint", "bit",
];

/// The place of a word in that order.
pub fn place(word: &str) -> usize {
    ORDER.iter().position(|other| *other == word).expect("a word of a difference")
}

pub fn bits((high, low, _): Row) -> u64 {
    (u64::MAX >> (63 - high)) & (u64::MAX << low)
}

/// The words that may be said of an instruction and another word in its place that also decodes. Where a fixed bit differs the other is
/// another instruction. Otherwise nothing comes after the first row that has one word; flags before it may be either of theirs.
pub fn possible(form: &Form, changed: u64) -> Vec<&'static str> {
    let rows = rows(form);
    if changed & !rows.iter().fold(0, |all, row| all | bits(*row)) != 0 {
        return INSTRUCTION.to_vec();
    }
    let differing: Vec<Words> = rows.into_iter().filter(|row| changed & bits(*row) != 0).map(|row| row.2).collect();
    let sure = differing.iter().filter(|words| words.len() == 1).map(|words| place(words[0]));
    let last = sure.min().unwrap_or(ORDER.len());
    differing.concat().into_iter().filter(|word| place(word) <= last).collect()
}

/// All words that turning a bit of the instruction round must lead to, by some encoding and some bit.
pub fn all_words(form: &Form) -> Vec<&'static str> {
    let rows = rows(form);
    let mut all: Vec<&str> = rows.iter().flat_map(|row| row.2).copied().chain(["instruction"]).collect();
    all.sort_by_key(|word| place(word));
    all.dedup();
    all
}

/// A bit that is not once in the rows, or fixed and not in them; L is a row of its own. Bits past the length stand nowhere.
pub fn misplaced(form: &Form) -> Option<u32> {
    let l = if matches!(form.name, Name::Mov16 | Name::Mov32) { 1 << 15 } else { 0 };
    let fixed = |bit: u32| (form.fixed & !l) >> bit & 1 == 1;
    let due = |bit: u32| if fixed(bit) || bit as usize >= 8 * form.length { 0 } else { 1 };
    let times = |bit: u32| rows(form).into_iter().filter(|row| bits(*row) >> bit & 1 == 1).count();
    (0..64).find(|bit| times(*bit) != due(*bit))
}
