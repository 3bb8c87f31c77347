//! Texts of Intel HEX without a bad row: rows of all counts and spellings. Some kernels are too long to be read.

use crate::hexrows::{any_spelling, end_row, lines, row, rows, Case, Returns, Row, Spelling, DATA};
use crate::hextexts::{Known, Text};
use crate::kernels::few;
use crate::random::Random;

/// Mostly a short one.
fn kernel(random: &mut Random) -> Vec<u8> {
    let bits = if random.once_in(20) { 12 } else { 7 };
    let length = few(random, bits) - 1;
    of_bytes(random, length)
}

/// Random bytes, sometimes all the same.
pub fn of_bytes(random: &mut Random, length: usize) -> Vec<u8> {
    match random.below(8) {
        0 => vec![random.pick(&[0, 0xFF, 0x80, b':', b'\n']); length],
        _ => random.bytes(length),
    }
}

/// The text of rows that hold a kernel.
fn text(random: &mut Random, rows: &[Row], kernel: Vec<u8>, spelling: Spelling) -> Text {
    Text { characters: lines(random, rows, spelling).concat(), known: Known::Kernel(kernel) }
}

/// Rows of 16 bytes.
pub fn spelled(random: &mut Random, case: Case, returns: Returns) -> Text {
    let kernel = kernel(random);
    text(random, &rows(&kernel, || 16), kernel, Spelling { case, returns })
}

/// Rows of one count.
pub fn of_count(random: &mut Random, count: usize) -> Text {
    let kernel = kernel(random);
    whole(random, kernel, count)
}

pub fn whole(random: &mut Random, kernel: Vec<u8>, count: usize) -> Text {
    let spelling = any_spelling(random);
    text(random, &rows(&kernel, || count), kernel, spelling)
}

pub fn any_counts(random: &mut Random) -> Text {
    let kernel = kernel(random);
    let (most, spelling) = (random.pick(&[2, 4, 17, 33, 256]), any_spelling(random));
    let rows = rows(&kernel, || random.below(most));
    text(random, &rows, kernel, spelling)
}

/// Up to hundreds of rows without data, before, between and behind those of a kernel.
pub fn empty_rows(random: &mut Random) -> Text {
    let kernel = kernel(random);
    let (mut all, mut next) = (Vec::new(), 0);
    let (often, spelling) = (random.pick(&[2, 5, 30]), any_spelling(random));
    for data in rows(&kernel, || 1 + random.below(40)) {
        all.extend((0..random.below(often)).map(|_| row(next, DATA, &[])));
        next += data[0] as usize;
        all.push(data);
    }
    text(random, &all, kernel, spelling)
}

pub fn no_kernel(random: &mut Random) -> Text {
    let mut rows = vec![row(0, DATA, &[]); 1 + random.below(9)];
    rows.push(end_row());
    let spelling = any_spelling(random);
    text(random, &rows, vec![], spelling)
}

/// Without its last row of data a text is that of a shorter kernel.
pub fn last_dropped(random: &mut Random) -> Text {
    let data = 1 + random.below(6);
    let mut rows = full_rows(random, data);
    rows.remove(data - 1);
    let kernel = rows.iter().flat_map(|row| row[4..row.len() - 1].to_vec()).collect();
    let spelling = any_spelling(random);
    text(random, &rows, kernel, spelling)
}

pub fn of_length(random: &mut Random, length: usize) -> Text {
    let kernel = of_bytes(random, length);
    let count = if random.bit() == 1 { 16 } else { 1 + random.below(255) };
    whole(random, kernel, count)
}

/// Rows of 255 bytes, of which the last begins at 65,535.
pub fn past_the_last(random: &mut Random) -> Text {
    let length = 65_536 + random.below(255);
    let kernel = of_bytes(random, length);
    whole(random, kernel, 255)
}

/// So many rows, each with data, and the end row.
pub fn full_rows(random: &mut Random, data: usize) -> Vec<Row> {
    let most = random.pick(&[1, 4, 16, 17, 100]);
    let counts: Vec<usize> = (0..data).map(|_| 1 + random.below(most)).collect();
    let kernel = random.bytes(counts.iter().sum());
    let mut counts = counts.into_iter();
    rows(&kernel, || counts.next().expect("a count for each row"))
}
