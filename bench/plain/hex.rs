//! Kernels as Intel HEX. A row is a colon, pairs of hexadecimal digits and a line feed, with or without a carriage return before it. The
//! pairs are a count, an address of two bytes with the high one first, a type, as many data bytes as the count says, and a sum.

use super::Refusal;

/// The longest kernel that is read or written.
pub const MOST_CODE: usize = 8192;

/// The data bytes of a row that is written.
const ROW_DATA: usize = 16;
/// The bytes of a row besides its data: count, address, type and sum.
const FRAME: usize = 5;
const DATA: u8 = 0;
const END: u8 = 1;
const DIGITS: &[u8; 16] = b"0123456789ABCDEF";

/// What is wrong with a row.
#[derive(Clone, Copy, Debug, PartialEq, Eq)]
pub enum Fault {
    /// The text ends inside the row.
    LineFeed,
    Character,
    /// Other than the count says, or too short for a count.
    Length,
    Sum,
    Gap,
    Overlap,
    Type,
    EndAddress,
    EndData,
    /// The text ends where a row must be.
    NoEnd,
    AfterEnd,
}

/// The first bad row of a text, counted from 1.
#[derive(Clone, Copy, Debug, PartialEq, Eq)]
pub struct Bad {
    pub row: usize,
    pub fault: Fault,
}

impl Fault {
    pub fn refusal(self) -> Refusal {
        match self {
            Fault::LineFeed | Fault::Character | Fault::Length => 12,
            Fault::Sum => 13,
            _ => 14,
        }
    }
}

/// The kernel of a text, of any length.
pub fn read(text: &[u8]) -> Result<Vec<u8>, Bad> {
    let mut code = Vec::new();
    let (mut rest, mut row) = (text, 1);
    while !rest.is_empty() {
        let bad = |fault| Bad { row, fault };
        let end = rest.iter().position(|character| *character == b'\n').ok_or(bad(Fault::LineFeed))?;
        let (line, after) = (&rest[..end], &rest[end + 1..]);
        let bytes = bytes(line).map_err(bad)?;
        if is_end(&bytes, code.len()).map_err(bad)? {
            return if after.is_empty() { Ok(code) } else { Err(Bad { row: row + 1, fault: Fault::AfterEnd }) };
        }
        code.extend(&bytes[4..bytes.len() - 1]);
        (rest, row) = (after, row + 1);
    }
    Err(Bad { row, fault: Fault::NoEnd })
}

/// The bytes that a line without its line feed spells, where their number is that of a row and their sum is 0.
fn bytes(line: &[u8]) -> Result<Vec<u8>, Fault> {
    let line = line.strip_suffix(b"\r").unwrap_or(line);
    let digits = line.strip_prefix(b":").ok_or(Fault::Character)?;
    if !digits.iter().all(u8::is_ascii_hexdigit) {
        return Err(Fault::Character);
    }
    let bytes: Vec<u8> = digits.chunks_exact(2).map(|pair| 16 * value(pair[0]) + value(pair[1])).collect();
    if digits.len() % 2 != 0 || bytes.len() < FRAME || bytes.len() != FRAME + bytes[0] as usize {
        return Err(Fault::Length);
    }
    if sum(&bytes) != 0 {
        return Err(Fault::Sum);
    }
    Ok(bytes)
}

/// Whether a row is the end row, and not the next row of data.
fn is_end(bytes: &[u8], next: usize) -> Result<bool, Fault> {
    let address = u16::from_be_bytes([bytes[1], bytes[2]]) as usize;
    match bytes[3] {
        DATA if address > next => Err(Fault::Gap),
        DATA if address < next => Err(Fault::Overlap),
        DATA => Ok(false),
        END if address != 0 => Err(Fault::EndAddress),
        END if bytes[0] != 0 => Err(Fault::EndData),
        END => Ok(true),
        _ => Err(Fault::Type),
    }
}

fn value(digit: u8) -> u8 {
    match digit {
        b'0'..=b'9' => digit - b'0',
        b'A'..=b'F' => digit - b'A' + 10,
        _ => digit - b'a' + 10,
    }
}

fn sum(bytes: &[u8]) -> u8 {
    bytes.iter().fold(0, |sum, byte| sum.wrapping_add(*byte))
}

/// The text of a kernel, or nothing where it is too long.
pub fn write(code: &[u8]) -> Option<Vec<u8>> {
    if code.len() > MOST_CODE {
        return None;
    }
    let mut text = Vec::new();
    for (place, data) in code.chunks(ROW_DATA).enumerate() {
        put_row(&mut text, (ROW_DATA * place) as u16, DATA, data);
    }
    put_row(&mut text, 0, END, &[]);
    Some(text)
}

fn put_row(text: &mut Vec<u8>, address: u16, kind: u8, data: &[u8]) {
    let [high, low] = address.to_be_bytes();
    let mut bytes = vec![data.len() as u8, high, low, kind];
    bytes.extend(data);
    bytes.push(sum(&bytes).wrapping_neg());
    text.push(b':');
    for byte in bytes {
        text.extend([DIGITS[byte as usize / 16], DIGITS[byte as usize % 16]]);
    }
    text.push(b'\n');
}
