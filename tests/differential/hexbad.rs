//! Texts of Intel HEX with a bad row, of which is known which row it is and how it is refused.

use crate::hexdamage::{any_damage, damaged, DAMAGE};
use crate::hexgood::{full_rows, of_bytes};
use crate::hexrows::{any_spelling, end_row, lines, row, rows, Line, Row, DATA, WRITTEN};
use crate::hextexts::{Known, Text};
use crate::random::Random;

/// A row without data, where there was none before it.
const NO_DATA: &[u8] = b":0000000000\n";

/// The row is counted from 1.
pub fn bad(characters: Vec<u8>, row: usize, refusal: u8) -> Text {
    Text { characters, known: Known::Bad { row, refusal } }
}

/// Any rows and their lines.
fn some_lines(random: &mut Random, data: usize) -> (Vec<Row>, Vec<Line>) {
    let (rows, spelling) = (full_rows(random, data), any_spelling(random));
    let lines = lines(random, &rows, spelling);
    (rows, lines)
}

/// Rows of which some are changed; `change` answers the place of the bad one, which is refused with 14. It gets the place of a row of
/// data from which on there are `least` of these.
pub fn changed(random: &mut Random, least: usize, change: fn(&mut Vec<Row>, usize) -> usize) -> Text {
    let more = random.below(6);
    let mut rows = full_rows(random, least + more);
    let place = change(&mut rows, random.below(more + 1));
    let spelling = any_spelling(random);
    bad(lines(random, &rows, spelling).concat(), place + 1, 14)
}

/// Rows of which one is damaged, by the place of the damage.
pub fn one_bad(random: &mut Random, damage: usize) -> Text {
    let data = random.below(6);
    let at = random.below(data + 1);
    bad_at(random, data, at, &[damage])
}

/// The same for the last of hundreds.
pub fn last_bad(random: &mut Random, damage: usize) -> Text {
    let data = 200 + random.below(120);
    bad_at(random, data, data, &[damage])
}

fn bad_at(random: &mut Random, data: usize, at: usize, places: &[usize]) -> Text {
    let (rows, spelling) = (full_rows(random, data), any_spelling(random));
    let mut lines = lines(random, &rows, spelling);
    lines[at] = damaged(random, &rows[at], spelling, places);
    let refusal = places.iter().map(|place| DAMAGE[*place].1).min();
    bad(lines.concat(), at + 1, refusal.expect("some damage"))
}

fn bad_line(random: &mut Random, row: &Row, refusal: u8) -> Line {
    let (place, spelling) = (any_damage(random, refusal), any_spelling(random));
    damaged(random, row, spelling, &[place])
}

/// Damage for each of the refusals, in one row; the lowest counts.
pub fn several(random: &mut Random, refusals: &[u8]) -> Text {
    let mut places: Vec<usize> = refusals.iter().map(|refusal| any_damage(random, *refusal)).collect();
    places.sort_unstable();
    let data = random.below(6);
    let at = random.below(data + 1);
    bad_at(random, data, at, &places)
}

/// The first of two bad rows counts, whatever the second is.
pub fn two_bad(random: &mut Random) -> Text {
    let data = 1 + random.below(6);
    let (rows, mut lines) = some_lines(random, data);
    let second = 1 + random.below(data);
    let first = random.below(second);
    let [one, other] = [(); 2].map(|_| random.pick(&[12, 13, 14]));
    lines[first] = bad_line(random, &rows[first], one);
    lines[second] = bad_line(random, &rows[second], other);
    bad(lines.concat(), first + 1, one)
}

pub fn after(random: &mut Random, tail: &[u8]) -> Text {
    let data = random.below(4);
    let (rows, mut lines) = some_lines(random, data);
    lines.push(tail.to_vec());
    bad(lines.concat(), rows.len() + 1, 14)
}

pub fn row_after(random: &mut Random) -> Text {
    let (count, kind) = (random.below(4), random.below(7) as u8);
    let row = row(random.below(20), kind, &random.bytes(count));
    let tail = lines(random, &[row], WRITTEN);
    after(random, &tail.concat())
}

pub fn bad_row_after(random: &mut Random) -> Text {
    let refusal = random.pick(&[12, 13, 14]);
    let tail = bad_line(random, &end_row(), refusal);
    after(random, &tail)
}

/// A text that ends behind a row has no end row, one that ends inside of a row no line feed.
pub fn cut(random: &mut Random) -> Text {
    let data = random.below(6);
    let mut characters = some_lines(random, data).1.concat();
    characters.truncate(random.below(characters.len()));
    let whole = characters.iter().filter(|character| **character == b'\n').count();
    let refusal = if characters.last().is_none_or(|last| *last == b'\n') { 14 } else { 12 };
    bad(characters, whole + 1, refusal)
}

pub fn empty_lines(random: &mut Random) -> Text {
    let ending = random.pick(&[&b"\n"[..], b"\r\n"]);
    bad(ending.repeat(1 + random.below(4)), 1, 12)
}

pub fn nothing_ends(random: &mut Random) -> Text {
    let rows = 1 + random.below(4);
    bad(NO_DATA.repeat(rows), rows + 1, 14)
}

/// A row of data, perhaps an empty one, where 65,536 bytes or more have come.
pub fn far_row(random: &mut Random) -> Text {
    let length = 65_536 + random.below(255);
    let mut rows = rows(&of_bytes(random, length), || 255);
    let place = rows.len() - 1;
    let (address, count) = (random.pick(&[length, length, 0, 0xFFFF]), random.below(3));
    rows.insert(place, row(address, DATA, &random.bytes(count)));
    bad(lines(random, &rows, WRITTEN).concat(), place + 1, 14)
}

/// A bad row whose number has more than 16 bits.
pub fn many_rows(random: &mut Random) -> Text {
    let before = 65_535 + random.below(500);
    let mut characters = NO_DATA.repeat(before);
    let refusal = random.pick(&[12, 13, 14]);
    characters.extend(bad_line(random, &end_row(), refusal));
    bad(characters, before + 1, refusal)
}
