//! Times decoding by the plain Rust program and by the proved one, and compares every number and every byte form that the two give.

use crate::drawn::{Codes, Holds, Holds::*, Left, Random, MOST_BYTES};
use crate::plain::find::Name::*;
use crate::plain::form::FORM_BYTES;
use crate::{exported, median, plain};
use std::hint::black_box;
use std::time::Instant;

/// Both programs are called through a pointer whose value the compiler does not know: neither becomes a part of the loop around it.
type Decode = fn(&[u8], usize, &mut [u8]) -> i32;
const PROGRAMS: [Decode; 2] = [plain::calls::decode, exported::decode];

/// What each line is of: all instructions, those under the headings of document 002, and what is refused.
#[rustfmt::skip]
const LINES: [(&str, Holds); 9] = [
    ("all instructions", Instructions(Mov16, ElseIcmp)),
    ("moves", Instructions(Mov16, GetSr)),
    ("integer arithmetic", Instructions(Iadd, Imadd)),
    ("shift/bitfield", Instructions(Bfi, Asrh)),
    ("bit manipulation", Instructions(Bitop, Ffs)),
    ("flow control and mask", Instructions(JmpExecAny, ElseIcmp)),
    ("refused, 2: cut short", Refused(2)),
    ("refused, 3: no diagram", Refused(3)),
    ("refused, 4: no meaning", Refused(4)),
];

/// Each line has so many kernels, so that the branch predictor has forgotten one when it comes again; each of them is walked so often.
const KERNELS: usize = 12;
const WALKS: usize = 41;

/// The kernels of a line, and for both programs the time of a call in each walk, in seconds.
struct Line {
    name: &'static str,
    holds: Holds,
    kernels: Vec<Codes>,
    times: [Vec<f64>; 2],
}

/// Times all lines and prints them; false if the two programs differ. The lines take turns, so that what else the machine does for a
/// while does not fall on one of them.
pub fn time_all() -> bool {
    let mut lines = LINES.map(|(name, holds)| Line::draw(name, holds, KERNELS));
    for walk in 0..=WALKS {
        lines.iter_mut().for_each(|line| line.walk(walk));
    }
    println!(
        "decoded instructions per second, median of {WALKS} walks of {KERNELS} kernels of up to {MOST_BYTES} bytes"
    );
    println!("ratio = time of plain Rust / time of the proved program: 1.00 as fast as plain Rust, above 1 faster");
    let [own, plain, proved] = ["plain ns/instruction", "plain", "proved"];
    println!("{:24} {own:>20} {plain:>11} {proved:>11} {:>6}", "kernel", "ratio");
    let same = lines.map(|line| {
        let same = line.is_decoded_alike();
        line.print();
        same
    });
    !same.contains(&false)
}

impl Line {
    fn draw(name: &'static str, holds: Holds, kernels: usize) -> Line {
        let mut random = Random::default();
        let kernels = (0..kernels).map(|_| Codes::draw(&mut random, holds)).collect();
        Line { name, holds, kernels, times: [Vec::new(), Vec::new()] }
    }

    /// One walk of each kernel by both programs. They take turns in who is first, too. The first walk, 0, is not counted.
    fn walk(&mut self, walk: usize) {
        for kernel in &self.kernels {
            let codes = kernel.each();
            for k in [walk % 2, 1 - walk % 2] {
                let time = time_walk(black_box(PROGRAMS[k]), &codes);
                if walk > 0 {
                    self.times[k].push(time);
                }
            }
        }
    }

    fn print(self) {
        let [own, other] = self.times.map(median);
        let ratio = own / other;
        println!("{:24} {:20.1} {:11.0} {:11.0} {ratio:6.2}", self.name, own * 1e9, 1.0 / own, 1.0 / other);
    }

    /// Walks each kernel once more: it must hold what it is said to hold, and the two programs must agree on all of it.
    fn is_decoded_alike(&self) -> bool {
        let same = self.kernels.iter().all(|kernel| {
            let [own, other] = PROGRAMS.map(|decode| left_by(decode, kernel));
            assert!(self.holds.shown_by(&own), "{}", self.name);
            own == other
        });
        if !same {
            println!("  answers or byte forms differ");
        }
        same
    }
}

/// The seconds of one call, of all calls of a walk.
fn time_walk(decode: Decode, codes: &[&[u8]]) -> f64 {
    let mut calls = 0;
    let start = Instant::now();
    walk(decode, codes, |_, _| calls += 1);
    start.elapsed().as_secs_f64() / calls as f64
}

/// Decodes each code from 0 by the lengths, to its end or its refusal.
#[inline(never)]
fn walk(decode: Decode, codes: &[&[u8]], mut each: impl FnMut(i32, &[u8; FORM_BYTES])) {
    let mut form = [0; FORM_BYTES];
    for code in codes {
        let mut offset = 0;
        while offset < code.len() {
            let answer = decode(code, offset, &mut form);
            each(answer, &form);
            if answer <= 0 {
                break;
            }
            offset += answer as usize;
        }
    }
}

fn left_by(decode: Decode, codes: &Codes) -> Vec<Left> {
    let mut left = Vec::new();
    walk(decode, &codes.each(), |answer, form| left.push((answer, *form)));
    left
}

#[cfg(test)]
mod tests {
    use super::*;

    #[test]
    fn both_programs_decode_the_kernels_alike() {
        for (name, holds) in LINES {
            assert!(Line::draw(name, holds, 1).is_decoded_alike(), "{name}");
        }
    }

    #[test]
    fn the_kernels_of_a_line_are_those_of_no_other() {
        for (k, (name, holds)) in LINES.iter().enumerate() {
            let left = left_by(PROGRAMS[0], &Line::draw(name, *holds, 1).kernels[0]);
            for (other, (_, holds)) in LINES.iter().enumerate() {
                assert_eq!(holds.shown_by(&left), k == other, "{name}");
            }
        }
    }
}
