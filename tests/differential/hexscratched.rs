//! Texts of Intel HEX that are damaged at random, of which nothing is known.

use crate::hexgood::full_rows;
use crate::hexrows::{any_spelling, lines, mend};
use crate::hextexts::{Known, Text};
use crate::random::Random;

fn nothing(characters: Vec<u8>) -> Text {
    Text { characters, known: Known::Nothing }
}

/// A text that is changed at one to three of its characters.
pub fn scratched(random: &mut Random, change: fn(&mut Random, &mut Vec<u8>, usize)) -> Text {
    let data = random.below(5);
    let (rows, spelling) = (full_rows(random, data), any_spelling(random));
    let mut characters = lines(random, &rows, spelling).concat();
    for _ in 0..random.pick(&[1, 1, 1, 2, 3]) {
        let at = random.below(characters.len());
        change(random, &mut characters, at);
    }
    nothing(characters)
}

/// Another byte in a row, whose sum is right.
pub fn any_byte(random: &mut Random) -> Text {
    let data = random.below(5);
    let (mut rows, spelling) = (full_rows(random, data), any_spelling(random));
    let at = random.below(rows.len());
    let byte = random.below(rows[at].len() - 1);
    rows[at][byte] = if random.bit() == 1 { random.number() as u8 } else { random.pick(&[0, 1, 2, 16, 0xFF]) };
    mend(&mut rows[at]);
    nothing(lines(random, &rows, spelling).concat())
}

pub fn any_text(random: &mut Random) -> Text {
    let length = random.below(60);
    nothing((0..length).map(|_| any_character(random)).collect())
}

/// Mostly one that rows have.
pub fn any_character(random: &mut Random) -> u8 {
    match random.below(6) {
        0 => random.number() as u8,
        1 => random.pick(b":\r\n \0gG/@`"),
        _ => random.pick(b"0123456789ABCDEFabcdef"),
    }
}
