//! Rows of Intel HEX: the bytes of a row, and how they are spelled.

use crate::random::Random;

pub const DATA: u8 = 0;
pub const END: u8 = 1;
const UPPER: &[u8; 16] = b"0123456789ABCDEF";
const LOWER: &[u8; 16] = b"0123456789abcdef";

/// Count, address, type, data and sum.
pub type Row = Vec<u8>;
/// The characters of a row, with its line feed.
pub type Line = Vec<u8>;

#[derive(Clone, Copy)]
pub enum Case {
    Upper,
    Lower,
    Both,
}

/// Which rows have a carriage return.
#[derive(Clone, Copy)]
pub enum Returns {
    None,
    All,
    Some,
}

#[derive(Clone, Copy)]
pub struct Spelling {
    pub case: Case,
    pub returns: Returns,
}

/// As it is written.
pub const WRITTEN: Spelling = Spelling { case: Case::Upper, returns: Returns::None };

pub fn any_spelling(random: &mut Random) -> Spelling {
    Spelling {
        case: random.pick(&[Case::Upper, Case::Lower, Case::Both]),
        returns: random.pick(&[Returns::None, Returns::All, Returns::Some]),
    }
}

/// The address is taken modulo 65,536.
pub fn row(address: usize, kind: u8, data: &[u8]) -> Row {
    let mut row = vec![data.len() as u8, (address >> 8) as u8, address as u8, kind];
    row.extend(data);
    row.push(0);
    mend(&mut row);
    row
}

pub fn end_row() -> Row {
    row(0, END, &[])
}

/// Makes the sum right.
pub fn mend(row: &mut Row) {
    row.pop();
    row.push(row.iter().fold(0, |sum: u8, byte| sum.wrapping_sub(*byte)));
}

/// The rows of a kernel, each with as many data bytes as `count` says, and the end row.
pub fn rows(kernel: &[u8], mut count: impl FnMut() -> usize) -> Vec<Row> {
    let (mut rows, mut address) = (Vec::new(), 0);
    while address < kernel.len() {
        let end = kernel.len().min(address + count());
        rows.push(row(address, DATA, &kernel[address..end]));
        address = end;
    }
    rows.push(end_row());
    rows
}

pub fn line(random: &mut Random, row: &[u8], spelling: Spelling) -> Line {
    let mut line = vec![b':'];
    for digit in row.iter().flat_map(|byte| [byte / 16, byte % 16]) {
        let digits = match spelling.case {
            Case::Upper => UPPER,
            Case::Lower => LOWER,
            Case::Both => random.pick(&[UPPER, LOWER]),
        };
        line.push(digits[digit as usize]);
    }
    match spelling.returns {
        Returns::None => {}
        Returns::All => line.push(b'\r'),
        Returns::Some => line.extend(random.pick(&[&b"\r"[..], b""])),
    }
    line.push(b'\n');
    line
}

pub fn lines(random: &mut Random, rows: &[Row], spelling: Spelling) -> Vec<Line> {
    rows.iter().map(|row| line(random, row, spelling)).collect()
}

pub fn leave_out(text: &mut Vec<u8>, at: usize) {
    text.remove(at);
}
