//! NULL where a length is 0: what each call answers, by the words of the interface.

use crate::exported::{reedtassel_decode, reedtassel_encode, reedtassel_run};
use crate::exported::{reedtassel_hex_read, reedtassel_hex_write};
use crate::plain::calls::ANSWER_BYTES;
use crate::report::Report;
use std::ptr::{null, null_mut};

const MOV16: [u8; 4] = [0x62, 0x04, 0x34, 0x12];

/// Its byte form.
fn mov16() -> [u8; 48] {
    let mut form = [0; 48];
    crate::plain::calls::decode(&MOV16, 0, &mut form);
    form
}

/// The number of a run that is lent registers and uniforms, marks as given, and NULL for code and special registers; whether it left
/// what it was lent.
fn run(marks: *mut u8, marks_len: usize) -> (i32, bool) {
    let (mut registers, uniforms) = ([3u8; 128], [0u8; 1024]);
    let (mut records, mut answer) = ([4u8; 16], [5u8; ANSWER_BYTES]);
    let (lent, words) = (registers.as_mut_ptr(), uniforms.as_ptr());
    let (room, left, none, bytes) = (records.as_mut_ptr(), answer.as_mut_ptr(), null(), ANSWER_BYTES);
    let given = unsafe {
        reedtassel_run(none, 0, lent, 128, marks, marks_len, words, 1024, none, 0, 0, 1, 1, room, 16, left, bytes)
    };
    (given, registers == [3; 128] && records == [4; 16] && answer == [5; ANSWER_BYTES])
}

/// The number of a run that is lent no marks; 1 where it wrote something.
fn run_without_marks() -> i32 {
    match run(null_mut(), 0) {
        (given, true) => given,
        (_, false) => 1,
    }
}

fn run_of_nothing() -> i32 {
    let (bytes, room) = (null(), null_mut());
    unsafe { reedtassel_run(bytes, 0, room, 0, room, 0, bytes, 0, bytes, 0, 0, 1, 1, room, 0, room, 0) }
}

/// Calls for Intel HEX, and what each must answer.
fn hex() -> [(&'static str, i32, i32); 9] {
    let text = |text: &'static str| (text.as_ptr(), text.len());
    let (end, bad) = (text(":00000001FF\n"), text(":00000001FE\n"));
    let byte = text(":01000000629D\n:00000001FF\n");
    let (mut code, mut row, mut room) = ([0u8; 8], [0u8; 8], [0u8; 12]);
    let (code, row, to) = (code.as_mut_ptr(), row.as_mut_ptr(), room.as_mut_ptr());
    // NULL comes with length 0 alone
    unsafe {
        [
            ("hex read, no text", reedtassel_hex_read(null(), 0, code, 8, row, 8), -14),
            ("hex read, nothing at all", reedtassel_hex_read(null(), 0, null_mut(), 0, null_mut(), 0), -14),
            ("hex read, no buffers", reedtassel_hex_read(end.0, end.1, null_mut(), 0, null_mut(), 0), 0),
            ("hex read, a bad row alone", reedtassel_hex_read(bad.0, bad.1, null_mut(), 0, null_mut(), 0), -13),
            ("hex read, no buffer for a kernel", reedtassel_hex_read(byte.0, byte.1, null_mut(), 0, row, 8), -1),
            ("hex read, no buffer for a row", reedtassel_hex_read(byte.0, byte.1, code, 8, null_mut(), 0), 1),
            ("hex write, no code", reedtassel_hex_write(null(), 0, to, 12), 12),
            ("hex write, no code and no buffer", reedtassel_hex_write(null(), 0, null_mut(), 0), -1),
            ("hex write, no buffer", reedtassel_hex_write(MOV16.as_ptr(), MOV16.len(), null_mut(), 0), -1),
        ]
    }
}

pub fn compare(report: &mut Report) {
    let (code, form) = (MOV16.as_ptr(), mov16());
    let (mut room, mut marks) = ([0u8; 48], [0u8; 64]);
    let (of_form, to) = (form.as_ptr(), room.as_mut_ptr());
    // NULL comes with length 0 alone
    let answers = unsafe {
        [
            ("decode, no code", reedtassel_decode(null(), 0, 0, to, 48), -2),
            ("decode, no code, an offset", reedtassel_decode(null(), 0, 1, to, 48), -1),
            ("decode, no code and no buffer", reedtassel_decode(null(), 0, 0, null_mut(), 0), -2),
            ("decode, no code, an offset and no buffer", reedtassel_decode(null(), 0, 1, null_mut(), 0), -1),
            ("decode, no buffer", reedtassel_decode(code, MOV16.len(), 0, null_mut(), 0), -1),
            ("encode, no form", reedtassel_encode(null(), 0, to, 48), -8),
            ("encode, no form and no buffer", reedtassel_encode(null(), 0, null_mut(), 0), -8),
            ("encode, no buffer", reedtassel_encode(of_form, 48, null_mut(), 0), -9),
            ("run, no code and no special registers", run(marks.as_mut_ptr(), 64).0, 0),
            ("run, no marks", run_without_marks(), -1),
            ("run, nothing at all", run_of_nothing(), -1),
        ]
    };
    let answers = [&answers[..], &hex()].concat();
    report.compare("NULL where the length is 0", answers.len() as u64, |number| {
        let (what, got, want) = answers[number as usize];
        (got != want).then(|| format!("{what}: {got} and not {want}"))
    });
}
