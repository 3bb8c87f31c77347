//! What the runs stepped through, from the records: which instructions, classes and operands, and how runs ended.

use crate::instructions::WORDS;
use crate::plain::decode::decode;
use crate::plain::form::Fields;
use crate::report::Report;

const CLASSES: [&str; 4] = ["data", "mask", "jump not taken", "jump taken"];
const OPERANDS: [&str; 7] = ["half", "register", "pair", "uniform half", "uniform", "uniform pair", "immediate"];
const HINTS: [&str; 3] = ["no", "the cache", "the discard"];

#[derive(Default)]
pub struct Stepped {
    endings: [u64; 3],
    classes: [u64; 5],
    /// Data steps that write some threads and not others.
    partly: u64,
    kinds: [u64; 23],
    destinations: [u64; 4],
    sources: [u64; 8],
    hints: [u64; 3],
}

impl Stepped {
    /// Counts a run by what it left.
    pub fn count(&mut self, code: &[u8], records: &[u8], answer: &[u8]) {
        let number =
            |at: usize| u32::from_le_bytes([answer[at], answer[at + 1], answer[at + 2], answer[at + 3]]) as usize;
        self.endings[number(0)] += 1;
        for record in records.chunks(16).take(number(8)) {
            let address = u16::from_le_bytes([record[0], record[1]]) as usize;
            self.classes[record[3] as usize] += 1;
            let active: u32 = record[4..8].iter().map(|byte| byte.count_ones()).sum();
            self.partly += (record[3] == 1 && (1..32).contains(&active)) as u64;
            let instruction = decode(&code[address..]).expect("an instruction that was stepped");
            self.count_operands(&Fields::of(&instruction));
        }
    }

    fn count_operands(&mut self, fields: &Fields) {
        self.kinds[fields.kind as usize] += 1;
        self.destinations[fields.d.kind as usize] += 1;
        for source in fields.sources.iter().filter(|source| source.kind != 0) {
            self.sources[source.kind as usize] += 1;
            self.hints[source.hint as usize] += 1;
        }
    }

    pub fn report(&self, report: &mut Report) {
        let rows: [(&str, &[&str], &[u64]); 6] = [
            ("runs", &["finished", "spent"], &self.endings[..2]),
            ("steps of class", &CLASSES, &self.classes[1..]),
            ("stepped", &WORDS, &self.kinds[1..]),
            ("stepped, destination", &OPERANDS[..3], &self.destinations[1..]),
            ("stepped, source", &OPERANDS, &self.sources[1..]),
            ("stepped, source with hint", &HINTS, &self.hints),
        ];
        report.happened("data steps of some threads and not of others", self.partly);
        for (what, names, times) in rows {
            for (name, times) in names.iter().zip(times) {
                report.happened(&format!("{what} {name}"), *times);
            }
        }
    }
}
