//! Pairs of kernels to compare: equal ones, ones of which one is damaged, and ones that are refused.

use crate::diagrams::{bits, place, rows};
use crate::instructions::{any_bytes, any_form, flip, good, shaped, ANY};
use crate::plain::decode::decode;
use crate::plain::find::Form;
use crate::random::Random;

const MOST_CODE: usize = 8192;
/// Past the limit; the last two are small numbers where only 16 bits of a length are looked at.
const TOO_LONG: [usize; 6] = [8193, 8194, 8199, 16384, 65536, 65540];

type Pair = [Vec<u8>; 2];
type Instructions = Vec<Vec<u8>>;
type Way = fn(&mut Random) -> Pair;

/// How a pair is made. Which of the two comes first is tossed up afterwards.
#[rustfmt::skip]
pub const WAYS: [(&str, Way); 25] = [
    ("random bytes", |random| [(); 2].map(|_| few_bytes(random))),
    ("two kernels of their own", |random| [(); 2].map(|_| kernel(random).concat())),
    ("equal kernels", |random| near(random, |_, _| {})),
    ("equal kernels that are refused", |random| ended(random, |random| { let bad = any_bad(random); [bad.clone(), bad] })),
    ("both empty", |_| [vec![], vec![]]),
    ("one empty", |random| [vec![], kernel(random).concat()]),
    ("one to three bits turned round", |random| damaged(random, |random, code| flip(random, code))),
    ("one bit turned round", |random| damaged(random, |random, code| *one_of(random, code) ^= 1 << random.below(8))),
    ("one byte replaced", |random| damaged(random, |random, code| *one_of(random, code) = random.number() as u8)),
    ("several bytes replaced", |random| damaged(random, |random, code| several(random, code))),
    ("cut at any byte", |random| damaged(random, |random, code| code.truncate(random.below(code.len())))),
    ("lengthened by bytes", |random| damaged(random, |random, code| code.extend(few_bytes(random)))),
    ("cut after an instruction", |random| near(random, |random, kernel| kernel.truncate(random.below(kernel.len())))),
    ("an instruction added", |random| near(random, |random, kernel| kernel.push(any_good(random)))),
    ("an instruction inserted", |random| near(random, |random, kernel| kernel.insert(random.below(kernel.len()), any_good(random)))),
    ("an instruction removed", |random| near(random, |random, kernel| drop(kernel.remove(random.below(kernel.len()))))),
    ("an instruction replaced", |random| near(random, |random, kernel| *one_of(random, kernel) = any_good(random))),
    ("any bytes for an instruction", |random| near(random, |random, kernel| *one_of(random, kernel) = any_bytes(random))),
    ("one refused", |random| ended(random, |random| [any_bad(random), any_good(random)])),
    ("one refused, the other at its end", |random| ended(random, |random| [any_bad(random), vec![]])),
    ("both refused", |random| ended(random, |random| [any_bad(random), any_bad(random)])),
    ("one too long", |random| [too_long(random), few_bytes(random)]),
    ("both too long", |random| [too_long(random), too_long(random)]),
    ("both of 8,192 bytes", full_pair),
    ("one of 8,192 bytes, one with a byte more", |random| { let code = full(random); [[&code[..], &[0x62]].concat(), code] }),
];

/// The ways before this one make short kernels.
const LONG: usize = 21;

pub fn short_way(random: &mut Random) -> usize {
    random.below(LONG)
}

/// Mostly a short one.
pub fn any_way(random: &mut Random) -> usize {
    if random.once_in(100) {
        LONG + random.below(WAYS.len() - LONG)
    } else {
        short_way(random)
    }
}

pub fn pair(random: &mut Random, way: usize) -> Pair {
    let [one, other] = WAYS[way].1(random);
    if random.bit() == 1 {
        [one, other]
    } else {
        [other, one]
    }
}

/// A kernel and itself after some instructions were changed.
fn near(random: &mut Random, change: impl Fn(&mut Random, &mut Instructions)) -> Pair {
    let one = kernel(random);
    let mut other = one.clone();
    change(random, &mut other);
    [one.concat(), other.concat()]
}

/// A kernel and itself after its bytes were changed.
fn damaged(random: &mut Random, change: impl Fn(&mut Random, &mut Vec<u8>)) -> Pair {
    let one = kernel(random).concat();
    let mut other = one.clone();
    change(random, &mut other);
    [one, other]
}

/// The same instructions, often none, and then two ends.
fn ended(random: &mut Random, ends: impl Fn(&mut Random) -> Pair) -> Pair {
    let start = if random.bit() == 1 { vec![] } else { kernel(random).concat() };
    ends(random).map(|end| [&start[..], &end].concat())
}

/// One to twenty instructions.
fn kernel(random: &mut Random) -> Instructions {
    (0..1 + random.below(20)).map(|_| any_good(random)).collect()
}

/// As much code as is allowed.
fn full(random: &mut Random) -> Vec<u8> {
    let mut code = Vec::new();
    while code.len() < MOST_CODE {
        let next = any_good(random);
        let rest = MOST_CODE - code.len();
        // no instruction has two bytes, so two may not be what is left
        if next.len() <= rest && rest - next.len() != 2 {
            code.extend(next);
        }
    }
    code
}

/// As much code as is allowed, and the same, often with a bit turned round near its end.
fn full_pair(random: &mut Random) -> Pair {
    let one = full(random);
    let mut other = one.clone();
    if !random.once_in(3) {
        let at = MOST_CODE - 1 - random.below(16);
        other[at] ^= 1 << random.below(8);
    }
    [one, other]
}

/// An instruction that decodes.
pub fn any_good(random: &mut Random) -> Vec<u8> {
    let form = any_form(random);
    good(random, form, ANY)
}

/// Bytes that are refused where the code ends after them: with 2, 3 and 4 alike often.
fn any_bad(random: &mut Random) -> Vec<u8> {
    let wanted = random.pick(&[2, 3, 4]);
    loop {
        let form = any_form(random);
        let mut bytes = if wanted == 3 { random.bytes(12) } else { shaped(random, form) };
        if wanted != 4 {
            bytes.truncate(1 + random.below(bytes.len() - 1));
        }
        if decode(&bytes) == Err(wanted) {
            return bytes;
        }
    }
}

fn few_bytes(random: &mut Random) -> Vec<u8> {
    let length = random.below(24);
    random.bytes(length)
}

fn several(random: &mut Random, code: &mut [u8]) {
    for _ in 0..2 + random.below(4) {
        *one_of(random, code) = random.number() as u8;
    }
}

fn one_of<'a, T>(random: &mut Random, all: &'a mut [T]) -> &'a mut T {
    let at = random.below(all.len());
    &mut all[at]
}

fn too_long(random: &mut Random) -> Vec<u8> {
    let length = random.pick(&TOO_LONG);
    let next = any_good(random);
    next.into_iter().cycle().take(length).collect()
}

/// An instruction of a form and another that is equal to it but for some fields of the diagram: one row of bits, and some of those that
/// come after it in the order of a comparison.
pub fn some_fields(random: &mut Random, form: &Form) -> Pair {
    loop {
        let [one, other] = [(); 2].map(|_| good(random, form, ANY));
        let some = some_bits(random, form).to_le_bytes();
        let mixed: Vec<u8> = (0..one.len()).map(|k| one[k] & !some[k] | other[k] & some[k]).collect();
        if mixed != one && decode(&mixed).is_ok() {
            return [one, mixed];
        }
    }
}

/// Without L, since both have one length.
fn some_bits(random: &mut Random, form: &Form) -> u64 {
    let mut rows = rows(form);
    rows.retain(|(_, _, words)| *words != ["length"]);
    let first = random.pick(&rows);
    let often = random.pick(&[2, 5]);
    rows.retain(|(_, _, words)| place(words[0]) >= place(first.2[0]) && random.once_in(often));
    rows.into_iter().fold(bits(first), |all, row| all | bits(row))
}
