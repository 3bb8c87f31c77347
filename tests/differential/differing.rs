//! Comparisons of kernels that differ in one instruction: every bit turned round by itself, and some fields changed together, both kernels
//! first in turn. The words of the answer are also held to the diagram's rows of bits.

use crate::beside::Beside;
use crate::comparing::Comparing;
use crate::diagrams::{all_words, misplaced};
use crate::instructions::{good, ANY, WORDS};
use crate::pairs::{any_good, some_fields};
use crate::plain::compare::compare as compared;
use crate::plain::decode::decode;
use crate::plain::find::{Form, Name, FORMS};
use crate::plain::form::Fields;
use crate::random::Random;
use crate::report::Report;
use std::collections::BTreeMap;

const GROUP: u64 = 7;
const OPERANDS: [&str; 8] =
    ["none", "half", "register", "pair", "uniform half", "uniform", "uniform pair", "immediate"];

/// The kinds of sources by their numbers above. A of iadd may be any, that of others not one of the pairs, which come first.
const KINDS: [u8; 7] = [3, 6, 4, 5, 7, 1, 2];

/// How often each word was said of each form, and how many sources of each kind there were.
#[derive(Default)]
struct Counts {
    words: BTreeMap<(u8, usize, String), u64>,
    sources: [u64; OPERANDS.len()],
}

pub fn compare(report: &mut Report, comparing: &mut Comparing, seed: u64, changes: u64, encodings: u64) {
    report.compare("each bit is fixed or stands once in the rows of its diagram", FORMS.len() as u64, |number| {
        let form = &FORMS[number as usize];
        misplaced(form).map(|bit| format!("bit {bit} of {:?}", form.name))
    });
    let (mut single, mut several) = (Counts::default(), Counts::default());
    let cases = encodings * FORMS.len() as u64;
    report.compare("compare, every bit of an instruction turned round by itself", cases, |number| {
        single.every_bit(comparing, &mut Random::of_case(seed, GROUP, number), number as usize)
    });
    single.report(report, "turned round in", |_| true);
    report.compare("compare, some fields of an instruction changed", changes, |number| {
        several.some(comparing, &mut Random::of_case(seed, GROUP + 1, number), number as usize % FORMS.len())
    });
    several.report(report, "changed in", |word| !["instruction", "length"].contains(&word));
}

impl Counts {
    /// Turns every bit of an encoding round, of each form in turn; the text of the first difference.
    fn every_bit(&mut self, comparing: &mut Comparing, random: &mut Random, number: usize) -> Option<String> {
        let before = before(random);
        let form = &FORMS[number % FORMS.len()];
        let instruction = encoding(random, form, number / FORMS.len());
        let beside = Beside { form, before: &before, instruction: &instruction };
        beside.turned().iter().find_map(|other| self.both_ways(comparing, random, &beside, other))
    }

    fn some(&mut self, comparing: &mut Comparing, random: &mut Random, form: usize) -> Option<String> {
        let before = before(random);
        let [instruction, other] = some_fields(random, &FORMS[form]);
        let beside = Beside { form: &FORMS[form], before: &before, instruction: &instruction };
        self.both_ways(comparing, random, &beside, &other)
    }

    fn both_ways(
        &mut self,
        comparing: &mut Comparing,
        random: &mut Random,
        beside: &Beside,
        other: &[u8],
    ) -> Option<String> {
        self.count_sources(beside.instruction);
        let kernels = [beside.kernel(beside.instruction), beside.kernel(other)];
        for [first, second] in [[0, 1], [1, 0]].map(|order| order.map(|which: usize| &kernels[which])) {
            let line = compared(first, second).line();
            let Some(said) = beside.allowed(other, &line) else {
                return Some(format!("{:02X?} and {other:02X?}: the plain program says {line}", beside.instruction));
            };
            *self.words.entry(key(beside.form, said)).or_default() += 1;
            if let Some(text) = comparing.held(random, first, second, None) {
                return Some(format!("{:02X?} and {other:02X?}{text}", beside.instruction));
            }
        }
        None
    }

    fn count_sources(&mut self, instruction: &[u8]) {
        for source in Fields::of(&decode(instruction).expect("an instruction")).sources {
            self.sources[source.kind as usize] += 1;
        }
    }

    /// A line for each form, with the words of its diagram that are asked for.
    fn report(&self, report: &mut Report, what: &str, asked: fn(&str) -> bool) {
        for form in &FORMS {
            let what = format!("{what} {}, {} bytes", WORDS[form.name as usize], form.length);
            let times = |word: &'static str| (word, self.words.get(&key(form, word)).copied().unwrap_or(0));
            let all: Vec<_> = all_words(form).into_iter().filter(|word| asked(word)).map(times).collect();
            report.reached(&what, &all);
        }
        let kinds: Vec<(&str, u64)> = OPERANDS.into_iter().zip(self.sources).skip(1).collect();
        report.reached(&format!("{what} instructions with sources of every kind"), &kinds);
    }
}

/// An encoding of a form, whose source A, if it has one, is of each kind in turn.
fn encoding(random: &mut Random, form: &Form, number: usize) -> Vec<u8> {
    let kinds = if form.name == Name::Iadd { &KINDS[..] } else { &KINDS[2..] };
    loop {
        let bytes = good(random, form, ANY);
        let [a, ..] = Fields::of(&decode(&bytes).expect("an instruction")).sources;
        if a.kind == 0 || a.kind == kinds[number % kinds.len()] {
            return bytes;
        }
    }
}

fn key(form: &Form, word: &str) -> (u8, usize, String) {
    (form.name.kind(), form.length, word.to_string())
}

/// The code before the instruction: none to eleven others.
fn before(random: &mut Random) -> Vec<u8> {
    (0..random.below(12)).flat_map(|_| any_good(random)).collect()
}
