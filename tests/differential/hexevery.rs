//! Short texts of Intel HEX of which each character and each byte is changed to every other, and each place gets every character.

use crate::hexreading::Reading;
use crate::hexrows::{end_row, leave_out, lines, mend, row, Case, Returns, Row, Spelling, DATA, WRITTEN};
use crate::hextexts::{Known, Text};
use crate::random::Random;
use crate::report::Report;

const GROUP: u64 = 33;
const VALUES: usize = 256;

/// Changes at a place that need no value.
const EDITS: [fn(&mut Vec<u8>, usize); 4] = [
    leave_out,
    |text, at| text.insert(at, text[at]),
    |text, at| text.truncate(at),
    |text, at| text[at..].rotate_left(1),
];

pub fn compare(report: &mut Report, reading: &mut Reading, seed: u64) {
    for (returns, what) in [(Returns::None, "without"), (Returns::All, "with")] {
        let random = &mut Random::of_case(seed, GROUP, 0);
        let text = lines(random, &few_rows(), Spelling { case: Case::Both, returns }).concat();
        let what = format!("of a text {what} carriage returns");
        let each = (text.len() * VALUES) as u64;
        report.compare(&format!("hex read, every character {what} by every value"), each, |number| {
            let (at, value) = (number as usize / VALUES, number as u8);
            held(reading, seed, number, &text, |text| text[at] = value)
        });
        report.compare(&format!("hex read, every value at every place {what}"), each + VALUES as u64, |number| {
            let (at, value) = (number as usize / VALUES, number as u8);
            held(reading, seed, number, &text, |text| text.insert(at, value))
        });
        let edits = (text.len() * EDITS.len()) as u64;
        report.compare(&format!("hex read, every place {what} with other changes"), edits, |number| {
            let (at, edit) = (number as usize / EDITS.len(), EDITS[number as usize % EDITS.len()]);
            held(reading, seed, number, &text, |text| edit(text, at))
        });
    }
    every_byte(report, reading, seed);
}

fn few_rows() -> Vec<Row> {
    vec![row(0, DATA, &[0x1A, 0xB2, 0xEF]), row(3, DATA, &[]), row(3, DATA, &[0x40]), end_row()]
}

/// The bytes of rows, with the right sum afterwards.
fn every_byte(report: &mut Report, reading: &mut Reading, seed: u64) {
    let rows = few_rows();
    let places: Vec<(usize, usize)> =
        rows.iter().enumerate().flat_map(|(at, row)| (0..row.len() - 1).map(move |byte| (at, byte))).collect();
    report.compare("hex read, every byte of rows by every value", (places.len() * VALUES) as u64, |number| {
        let (at, byte) = places[number as usize / VALUES];
        let mut rows = rows.clone();
        rows[at][byte] = number as u8;
        mend(&mut rows[at]);
        let random = &mut Random::of_case(seed, GROUP + 1, number);
        let characters = lines(random, &rows, WRITTEN).concat();
        reading.held(random, &Text { characters, known: Known::Nothing })
    });
}

fn held(reading: &mut Reading, seed: u64, number: u64, text: &[u8], edit: impl Fn(&mut Vec<u8>)) -> Option<String> {
    let mut characters = text.to_vec();
    edit(&mut characters);
    let random = &mut Random::of_case(seed, GROUP + 2, number);
    reading.held(random, &Text { characters, known: Known::Nothing })
}
