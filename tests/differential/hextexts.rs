//! Texts of Intel HEX to read. Where the way that a text was made says what must be found, that is known.

use crate::hexbad::{after, bad, bad_row_after, changed, cut, empty_lines, far_row, last_bad, many_rows, nothing_ends};
use crate::hexbad::{one_bad, row_after, several, two_bad};
use crate::hexdamage::DAMAGE;
use crate::hexgood::{any_counts, empty_rows, last_dropped, no_kernel, of_count, of_length};
use crate::hexgood::{past_the_last, spelled, whole};
use crate::hexrows::{end_row, leave_out, row, Case, Returns, DATA};
use crate::hexscratched::{any_byte, any_character, any_text, scratched};
use crate::kernels::MOST_CODE;
use crate::random::Random;
use std::ops::Range;

/// What must be found.
pub enum Known {
    /// It may be too long to be read.
    Kernel(Vec<u8>),
    Bad {
        row: usize,
        refusal: u8,
    },
    Nothing,
}

pub struct Text {
    pub characters: Vec<u8>,
    pub known: Known,
}

type Way = fn(&mut Random) -> Text;

/// How a text is made. A text with one damaged row is made in as many ways as there is damage; these are the others.
#[rustfmt::skip]
const WAYS: [(&str, Way); 50] = [
    ("rows as they are written", |random| spelled(random, Case::Upper, Returns::None)),
    ("lower case", |random| spelled(random, Case::Lower, Returns::None)),
    ("both cases", |random| spelled(random, Case::Both, Returns::None)),
    ("carriage returns", |random| spelled(random, Case::Upper, Returns::All)),
    ("some carriage returns", |random| spelled(random, Case::Upper, Returns::Some)),
    ("rows of one count", |random| { let count = 1 + random.below(255); of_count(random, count) }),
    ("rows of count 1", |random| of_count(random, 1)),
    ("rows of count 255", |random| of_count(random, 255)),
    ("rows of any counts", any_counts),
    ("many rows of count 0 among others", empty_rows),
    ("rows of count 0 and no kernel", no_kernel),
    ("the end row alone", |random| whole(random, vec![], 16)),
    ("the last row of data dropped", last_dropped),
    ("a row dropped", |random| changed(random, 2, |rows, at| { rows.remove(at); at })),
    ("the first row dropped", |random| changed(random, 2, |rows, _| { rows.remove(0); 0 })),
    ("two rows exchanged", |random| changed(random, 2, |rows, at| { rows.swap(at, at + 1); at })),
    ("two rows exchanged that are apart", |random| changed(random, 3, |rows, at| { let last = rows.len() - 2; rows.swap(at, last); at })),
    ("a row doubled", |random| changed(random, 1, |rows, at| { rows.insert(at, rows[at].clone()); at + 1 })),
    ("a row again, later", |random| changed(random, 2, |rows, at| { let end = rows.len() - 1; rows.insert(end, rows[at].clone()); end })),
    ("a row of count 0 with another address", |random| changed(random, 1, |rows, at| { rows.insert(at, row(5000, DATA, &[])); at })),
    ("type 00 for the end row", |random| changed(random, 1, |rows, _| { rows.pop(); rows.push(row(0, DATA, &[])); rows.len() - 1 })),
    ("the end row dropped", |random| changed(random, 1, |rows, _| { rows.pop(); rows.len() })),
    ("no end row and no kernel", nothing_ends),
    ("the end row doubled", |random| changed(random, 1, |rows, _| { rows.push(end_row()); rows.len() - 1 })),
    ("the end row too early", |random| changed(random, 1, |rows, at| { rows.pop(); rows.insert(at, end_row()); at + 1 })),
    ("two end rows, the first too early", |random| changed(random, 1, |rows, at| { rows.insert(at, end_row()); at + 1 })),
    ("after the end a line feed", |random| after(random, b"\n")),
    ("after the end a carriage return", |random| after(random, b"\r")),
    ("after the end a carriage return and a line feed", |random| after(random, b"\r\n")),
    ("after the end a space", |random| after(random, b" ")),
    ("after the end a colon", |random| after(random, b":")),
    ("after the end a zero byte", |random| after(random, b"\0")),
    ("after the end any byte", |random| { let byte = random.bytes(1); after(random, &byte) }),
    ("after the end a row", row_after),
    ("after the end a bad row", bad_row_after),
    ("two bad rows", two_bad),
    ("13 and 14 in a row", |random| several(random, &[13, 14])),
    ("12 and 14 in a row", |random| several(random, &[12, 14])),
    ("12 and 13 in a row", |random| several(random, &[12, 13])),
    ("12, 13 and 14 in a row", |random| several(random, &[12, 13, 14])),
    ("a text cut short", cut),
    ("empty lines", empty_lines),
    ("empty text", |_| bad(vec![], 1, 14)),
    ("a character changed", |random| scratched(random, |random, text, at| text[at] = any_character(random))),
    ("a character dropped", |random| scratched(random, |_, text, at| leave_out(text, at))),
    ("a character doubled", |random| scratched(random, |_, text, at| text.insert(at, text[at]))),
    ("a character inserted", |random| scratched(random, |random, text, at| text.insert(at, any_character(random)))),
    ("two characters exchanged", |random| scratched(random, |random, text, at| { let to = random.below(text.len()); text.swap(at, to) })),
    ("a byte changed and the sum right", any_byte),
    ("random characters", any_text),
];

/// The same for long texts.
#[rustfmt::skip]
const LONG: [(&str, Way); 6] = [
    ("8,192 bytes", |random| of_length(random, MOST_CODE)),
    ("8,193 bytes", |random| of_length(random, MOST_CODE + 1)),
    ("more than 8,193 bytes", |random| { let length = random.pick(&TOO_LONG); of_length(random, length) }),
    ("a row that goes past 65,535", past_the_last),
    ("a row after 65,535", far_row),
    ("a bad row after more than 65,535", many_rows),
];

const TOO_LONG: [usize; 7] = [8194, 12_288, 16_384, 32_768, 65_534, 65_535, 65_536];

/// The places of the ways: those that make short texts, those where the last of hundreds of rows is damaged, those that make long texts.
pub const FEW_ROWS: Range<usize> = 0..DAMAGE.len() + WAYS.len();
pub const HUNDREDS: Range<usize> = FEW_ROWS.end..FEW_ROWS.end + DAMAGE.len();
pub const LONG_TEXTS: Range<usize> = HUNDREDS.end..HUNDREDS.end + LONG.len();

/// The names of all ways, by their places.
pub fn ways() -> Vec<String> {
    let damage = |row| DAMAGE.iter().map(move |(what, refusal, _)| format!("{row} refused {refusal} for {what}"));
    let named = |(what, _): &(&str, Way)| what.to_string();
    let short = damage("a row").chain(WAYS.iter().map(named));
    short.chain(damage("the last of hundreds of rows")).chain(LONG.iter().map(named)).collect()
}

/// A text that is made in the way at that place.
pub fn text(random: &mut Random, way: usize) -> Text {
    if way >= LONG_TEXTS.start {
        LONG[way - LONG_TEXTS.start].1(random)
    } else if way >= HUNDREDS.start {
        last_bad(random, way - HUNDREDS.start)
    } else if way >= DAMAGE.len() {
        WAYS[way - DAMAGE.len()].1(random)
    } else {
        one_bad(random, way)
    }
}
