//! Comparisons compared: pairs of kernels of all kinds, every answer, every length of the line's buffer, and kernels that share memory.

use crate::calling::{nulls, shown, Rooms, LINE, MOST_LINE};
use crate::differing;
use crate::pairs::{any_way, pair, short_way, WAYS};
use crate::plain::compare::{compare as compared, Comparison};
use crate::plain::decode::decode;
use crate::random::Random;
use crate::report::Report;

const GROUP: u64 = 4;
/// Kernels up to the first length are lent in memory of their own, so that there is less to look through.
const SMALL: usize = 8192;
const LARGE: usize = 66_000;

/// Every answer there is, as the line has it after its address.
#[rustfmt::skip]
const ANSWERS: [&str; 30] = [
    "same", "instruction", "length", "destination", "source A", "source B", "source C", "immediate", "field 6", "field 8", "field 11",
    "field 13", "field 16", "field 26", "field 27", "field 38", "field 39", "field 50", "hint", "bit", "ended 1", "ended 2",
    "refused 1 1", "refused 1 2", "refused 2 1", "refused 2 2", "refused 3 1", "refused 3 2", "refused 4 1", "refused 4 2",
];

pub struct Comparing {
    small: Rooms,
    large: Rooms,
    answers: [u64; ANSWERS.len()],
    /// A pair for each answer.
    samples: [Option<[Vec<u8>; 2]>; ANSWERS.len()],
    ways: [u64; WAYS.len()],
    /// Refused in the first or the second kernel where the other has ended.
    at_the_end: [u64; 2],
    /// Both kernels refused at the same address, with different numbers.
    both_refused: u64,
}

pub fn compare(report: &mut Report, seed: u64, cases: u64, encodings: u64) {
    nulls(report);
    let mut comparing = Comparing::new();
    report.compare("compare", cases, |number| comparing.one(&mut Random::of_case(seed, GROUP, number)));
    comparing.same_memory(report, seed, cases / 16);
    differing::compare(report, &mut comparing, seed, cases / 4, encodings);
    comparing.every_room(report, seed);
    comparing.report(report);
}

impl Comparing {
    fn new() -> Comparing {
        Comparing {
            small: Rooms::new(SMALL),
            large: Rooms::new(LARGE),
            answers: [0; ANSWERS.len()],
            samples: [const { None }; ANSWERS.len()],
            ways: [0; WAYS.len()],
            at_the_end: [0; 2],
            both_refused: 0,
        }
    }

    /// Compares one case; the text of a difference.
    fn one(&mut self, random: &mut Random) -> Option<String> {
        let way = any_way(random);
        self.ways[way] += 1;
        let [first, second] = pair(random, way);
        self.held(random, &first, &second, None)
    }

    fn count(&mut self, answer: Comparison, first: &[u8], second: &[u8]) {
        let line = answer.line();
        let said = line.split_once(' ').map_or(&line[..], |(_, said)| said);
        let which = ANSWERS.iter().position(|other| *other == said).expect("an answer of the list");
        self.answers[which] += 1;
        self.samples[which].get_or_insert_with(|| [first.to_vec(), second.to_vec()]);
        if let Comparison::Refused { address, refusal: refusal @ 2.., kernel } = answer {
            let other = if kernel == 1 { second } else { first };
            if other.len() == address {
                self.at_the_end[kernel as usize - 1] += 1;
            } else if decode(&other[address..]).is_err_and(|number| number != refusal) {
                self.both_refused += 1;
            }
        }
    }

    fn report(&self, report: &mut Report) {
        for (answer, times) in ANSWERS.iter().zip(self.answers) {
            report.happened(&format!("compare answered {answer}"), times);
        }
        for (kernel, times) in (1..).zip(self.at_the_end) {
            report.happened(&format!("compare refused kernel {kernel} where the other had ended"), times);
        }
        report.happened("compare refused both kernels, with different numbers", self.both_refused);
        for ((way, _), times) in WAYS.iter().zip(self.ways) {
            report.happened(&format!("compared {way}"), times);
        }
    }

    /// A pair for each answer, with every length of the buffer, four times each.
    fn every_room(&mut self, report: &mut Report, seed: u64) {
        let samples: Vec<[Vec<u8>; 2]> = self.samples.iter().flatten().cloned().collect();
        let rooms = MOST_LINE + 1;
        report.compare("compare, every answer and every room", (4 * rooms * samples.len()) as u64, |number| {
            let [first, second] = &samples[number as usize / (4 * rooms)];
            let room = number as usize % rooms;
            self.held(&mut Random::of_case(seed, GROUP + 1, number), first, second, Some(room))
        });
    }

    /// Both kernels in one memory: the same bytes, or some of them.
    fn same_memory(&mut self, report: &mut Report, seed: u64, cases: u64) {
        let rooms = &mut self.small;
        report.compare("compare, both kernels in the same memory", cases, |number| {
            let random = &mut Random::of_case(seed, GROUP + 2, number);
            let way = short_way(random);
            let [code, _] = pair(random, way);
            let [from, to] = [random.below(code.len() + 1), random.below(code.len() + 1)];
            let part = if random.bit() == 1 { 0..code.len() } else { from.min(to)..from.max(to) };
            let ranges = if random.bit() == 1 { [0..code.len(), part] } else { [part, 0..code.len()] };
            rooms.parts_held(random, &code, ranges)
        });
    }

    /// Compares one pair; the text of a difference. Where no room for the line is named, it is often just enough or one byte too short.
    pub fn held(&mut self, random: &mut Random, first: &[u8], second: &[u8], room: Option<usize>) -> Option<String> {
        let answer = compared(first, second);
        self.count(answer, first, second);
        let line = answer.line();
        // equal bytes that are refused are refused in the first kernel
        let of_both = line.contains("refused") && line.ends_with(" 1");
        let fair = if first == second { line == "same" || of_both } else { line != "same" };
        if !fair {
            return Some(format!("{}\n  the plain program says {line}", shown(first, second)));
        }
        let room = room.unwrap_or_else(|| match random.below(4) {
            0 => line.len(),
            1 => line.len() - 1,
            2 => LINE,
            _ => random.below(MOST_LINE + 1),
        });
        let rooms = if first.len().max(second.len()) <= SMALL { &mut self.small } else { &mut self.large };
        rooms.held(random, first, second, room)
    }
}
