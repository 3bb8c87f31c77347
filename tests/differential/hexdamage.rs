//! Damage to a row of Intel HEX for which it is refused, with the number of the refusal.

use crate::hexrows::{leave_out, line, mend, row, Line, Row, Spelling, END};
use crate::random::Random;

/// Characters next to digits, and others that are none.
const NO_DIGITS: [u8; 20] = *b"/:@G`g \t\r\n.;-+xXOlZ\0";

pub enum Change {
    /// The sum is made right afterwards.
    Bytes(fn(&mut Random, &mut Row)),
    Sum(fn(&mut Random, &mut Row)),
    Characters(fn(&mut Random, &mut Line)),
}

use Change::{Bytes, Characters, Sum};

/// What is damaged, the refusal, and how. Several can be done to one row, in their order here.
#[rustfmt::skip]
pub const DAMAGE: [(&str, u8, Change); 42] = [
    ("an address one higher", 14, Bytes(|_, row| raise(row, 1))),
    ("an address one lower", 14, Bytes(|_, row| raise(row, 0xFFFF))),
    ("an address 256 higher", 14, Bytes(|_, row| raise(row, 0x100))),
    ("an address 32,768 higher", 14, Bytes(|_, row| raise(row, 0x8000))),
    ("any other address", 14, Bytes(|random, row| raise(row, 1 + random.below(0xFFFF)))),
    ("type 02", 14, Bytes(|_, row| row[3] = 2)),
    ("type 03", 14, Bytes(|_, row| row[3] = 3)),
    ("type 04", 14, Bytes(|_, row| row[3] = 4)),
    ("type 05", 14, Bytes(|_, row| row[3] = 5)),
    ("type 10, 11, 80, 81 or FF", 14, Bytes(|random, row| row[3] = random.pick(&[0x10, 0x11, 0x80, 0x81, 0xFF]))),
    ("a type from 02 to FF", 14, Bytes(|random, row| row[3] = 2 + random.below(254) as u8)),
    ("a row for the high part of addresses, which is 0", 14, Bytes(|random, of| *of = row(0, random.pick(&[2, 4]), &[0, 0]))),
    ("a row for a start address", 14, Bytes(|random, of| *of = row(0, random.pick(&[3, 5]), &random.bytes(4)))),
    ("an end row with an address", 14, Bytes(|random, of| *of = row(1 + random.below(0xFFFF), END, &[]))),
    ("an end row with a low address", 14, Bytes(|random, of| *of = row(1 + random.below(0xFF), END, &[]))),
    ("an end row with a high address", 14, Bytes(|random, of| *of = row((1 + random.below(0xFF)) << 8, END, &[]))),
    ("an end row with data", 14, Bytes(|random, of| *of = row(0, END, &some_bytes(random)))),
    ("an end row with address and data", 14, Bytes(|random, of| *of = row(1 + random.below(0xFFFF), END, &some_bytes(random)))),
    ("a count one higher", 12, Bytes(|_, row| row[0] = row[0].wrapping_add(1))),
    ("a count one lower", 12, Bytes(|_, row| row[0] = row[0].wrapping_sub(1))),
    ("any other count", 12, Bytes(|random, row| row[0] = row[0].wrapping_add(1 + random.below(255) as u8))),
    ("a sum one higher", 13, Sum(|_, row| add(row.last_mut(), 1))),
    ("a sum one lower", 13, Sum(|_, row| add(row.last_mut(), 255))),
    ("a sum 128 higher", 13, Sum(|_, row| add(row.last_mut(), 128))),
    ("any other sum", 13, Sum(|random, row| add(row.last_mut(), 1 + random.below(255) as u8))),
    ("another byte and the same sum", 13, Sum(|random, row| {
        let at = 1 + random.below(row.len() - 2);
        add(row.get_mut(at), 1 + random.below(255) as u8);
    })),
    ("a character that is no digit", 12, Characters(|random, line| { let at = digit(random, line); line[at] = no_digit(random) })),
    ("another character for the colon", 12, Characters(|random, line| line[0] = random.pick(b"; 0"))),
    ("no colon", 12, Characters(|_, line| leave_out(line, 0))),
    ("a character before the colon", 12, Characters(|random, line| line.insert(0, random.pick(b": \t\r\n0x")))),
    ("an empty line before it", 12, Characters(|random, line| drop(line.splice(0..0, random.pick(&[&b"\n"[..], b"\r\n"]).to_vec())))),
    ("a digit less", 12, Characters(|random, line| { let at = digit(random, line); leave_out(line, at) })),
    ("a digit more", 12, Characters(|random, line| { let at = digit(random, line); line.insert(at, line[at]) })),
    ("no sum", 12, Characters(|_, line| { let end = end(line); drop(line.drain(end - 2..end)) })),
    ("a byte behind the sum", 12, Characters(|_, line| { let end = end(line); drop(line.splice(end..end, *b"00")) })),
    ("fewer than five bytes", 12, Characters(|random, line| { let end = end(line); drop(line.drain(1 + random.below(9)..end)) })),
    ("a character behind the digits", 12, Characters(|random, line| { let end = end(line); line.insert(end, random.pick(b" \t:;\0")) })),
    ("two carriage returns", 12, Characters(|_, line| { let end = end(line); drop(line.splice(end.., *b"\r\r\n")) })),
    ("a carriage return among the digits", 12, Characters(|random, line| { let at = digit(random, line); line.insert(at, b'\r') })),
    ("a line feed among the digits", 12, Characters(|random, line| { let at = digit(random, line); line.insert(at, b'\n') })),
    ("a carriage return and no line feed", 12, Characters(|_, line| { let end = end(line); drop(line.splice(end.., *b"\r")) })),
    ("no line feed", 12, Characters(|_, line| line.truncate(end(line)))),
];

/// A row with some damage, given by its places in the list, the lowest first.
pub fn damaged(random: &mut Random, row: &Row, spelling: Spelling, places: &[usize]) -> Line {
    let mut row = row.clone();
    for place in places {
        match DAMAGE[*place].2 {
            Bytes(change) => {
                change(random, &mut row);
                mend(&mut row);
            }
            Sum(change) => change(random, &mut row),
            Characters(_) => {}
        }
    }
    let mut line = line(random, &row, spelling);
    for place in places {
        if let Characters(change) = DAMAGE[*place].2 {
            change(random, &mut line);
        }
    }
    line
}

/// The place of any damage with this refusal.
pub fn any_damage(random: &mut Random, refusal: u8) -> usize {
    loop {
        let place = random.below(DAMAGE.len());
        if DAMAGE[place].1 == refusal {
            return place;
        }
    }
}

fn raise(row: &mut Row, by: usize) {
    let address = u16::from_be_bytes([row[1], row[2]]).wrapping_add(by as u16);
    row[1..3].copy_from_slice(&address.to_be_bytes());
}

fn add(byte: Option<&mut u8>, number: u8) {
    let byte = byte.expect("a byte of the row");
    *byte = byte.wrapping_add(number);
}

fn some_bytes(random: &mut Random) -> Vec<u8> {
    let most = random.pick(&[1, 16, 255]);
    let length = 1 + random.below(most);
    random.bytes(length)
}

fn no_digit(random: &mut Random) -> u8 {
    match random.below(3) {
        0 => 0x80 | random.number() as u8,
        _ => random.pick(&NO_DIGITS),
    }
}

/// Where the digits end.
fn end(line: &[u8]) -> usize {
    line.len() - if line.ends_with(b"\r\n") { 2 } else { 1 }
}

/// The place of any digit.
fn digit(random: &mut Random, line: &[u8]) -> usize {
    1 + random.below(end(line) - 1)
}
