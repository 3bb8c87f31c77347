//! Runs that come back to addresses, compared like other runs. The run keeps what it decoded, in 256 slots by address / 4: here
//! kernels are longer than that, go back and forth between addresses that share a slot, and are refused where a slot holds another
//! instruction.

use crate::blocks::{LAYER, LAYERS};
use crate::instructions::WORDS;
use crate::kernels::Run;
use crate::random::Random;
use crate::report::Report;
use crate::rounds::{apart, long_loop, one_step, orders, overlapping, straight, then_refused, turning};
use crate::running::Rooms;
use crate::visits::{Held, Visits};

const GROUP: u64 = 10;
/// The kinds of the byte form begin with 1.
const KINDS_END: usize = WORDS.len() + 1;

type Make = fn(&mut Random) -> Run;
type Reached = fn(&Run, &Visits) -> bool;

/// The kinds of kernels: how one is made, and what a run of it must have done to count.
#[rustfmt::skip]
const KINDS: [(&str, Make, Reached); 8] = [
    ("straight on through more code than the slots hold", straight, |run, visits| visits.steps > 256 && run.code.len() > LAYER),
    ("loops longer than the slots hold", long_loop, |_, visits| visits.far() > 1024),
    ("back and forth between addresses 1,024 bytes apart, or more", apart, |_, visits| visits.far() > 8),
    ("back and forth between addresses in the same four bytes", overlapping, |_, visits| visits.near > 8),
    ("refused where the slot has an instruction that was stepped again", then_refused, |_, visits| {
        matches!(visits.refused, Some(Held::Itself | Held::Near | Held::Far))
    }),
    ("jumps once taken and once not", turning, |_, visits| visits.turned.iter().all(|times| *times > 2)),
    ("every instruction after every other", orders, |_, visits| visits.steps > 16),
    ("one step, or none, from anywhere", one_step, |run, visits| visits.steps == (run.start < run.code.len()) as u64),
];

struct Revisits {
    rooms: Rooms,
    reached: [u64; KINDS.len()],
    /// Steps at the same address again, and after another of the same slot.
    again: u64,
    near: u64,
    far: [u64; LAYERS],
    turned: [u64; 2],
    /// By refusal, those where the slot had another address far or near, or this one.
    refused: [[u64; 3]; 11],
    pairs: [[u64; KINDS_END]; KINDS_END],
    /// Starts that are not 0, and those at the code's end.
    starts: [u64; 2],
    budget_one: u64,
}

pub fn compare(report: &mut Report, seed: u64, cases: u64) {
    let mut revisits = Revisits::new();
    for (kind, (what, ..)) in KINDS.iter().enumerate() {
        let group = GROUP + kind as u64;
        report.compare(&format!("run, {what}"), cases, |number| {
            revisits.one(&mut Random::of_case(seed, group, number), kind)
        });
    }
    revisits.report(report);
}

impl Revisits {
    fn new() -> Revisits {
        Revisits {
            rooms: Rooms::new(),
            reached: [0; KINDS.len()],
            again: 0,
            near: 0,
            far: [0; LAYERS],
            turned: [0; 2],
            refused: [[0; 3]; 11],
            pairs: [[0; KINDS_END]; KINDS_END],
            starts: [0; 2],
            budget_one: 0,
        }
    }

    /// Compares one case; the text of a difference.
    fn one(&mut self, random: &mut Random, kind: usize) -> Option<String> {
        let run = KINDS[kind].1(random);
        let (wanted, difference) = self.rooms.held(&run, random);
        assert!(wanted.given != -1, "a run that is well arranged");
        let visits = Visits::of(&run, &wanted.records, &wanted.answer);
        self.reached[kind] += KINDS[kind].2(&run, &visits) as u64;
        self.count(&run, &visits, -wanted.given as usize);
        difference
    }

    fn count(&mut self, run: &Run, visits: &Visits, refusal: usize) {
        self.again += visits.again;
        self.near += visits.near;
        let counts = self.far.iter_mut().chain(&mut self.turned);
        for (all, times) in counts.zip(visits.far.iter().chain(&visits.turned)) {
            *all += times;
        }
        for [first, second] in &visits.pairs {
            self.pairs[*first][*second] += 1;
        }
        match visits.refused {
            Some(Held::Far) => self.refused[refusal][0] += 1,
            Some(Held::Near) => self.refused[refusal][1] += 1,
            Some(Held::Itself) => self.refused[refusal][2] += 1,
            _ => {}
        }
        self.starts[0] += (run.start > 0 && visits.steps > 0) as u64;
        self.starts[1] += (run.start == run.code.len()) as u64;
        self.budget_one += (run.budget == 1 && visits.steps == 1) as u64;
    }

    fn report(&self, report: &mut Report) {
        for ((what, ..), times) in KINDS.iter().zip(self.reached) {
            report.happened(&format!("run as meant, {what}"), times);
        }
        report.happened("steps at the address that had their slot last", self.again);
        let far: Vec<(&str, u64)> =
            ["1", "2", "3", "4", "5", "6", "7"].into_iter().zip(self.far[1..].to_vec()).collect();
        report.reached("steps back at an address 1,024 bytes, times so many, from the one that had their slot", &far);
        report.happened("steps back at an address two bytes from the one that had their slot", self.near);
        report.happened("jumps taken that were not before", self.turned[0]);
        report.happened("jumps not taken that were before", self.turned[1]);
        for refusal in (2..8).chain([10]) {
            let [far, near, _] = self.refused[refusal];
            let times = [("far", far), ("near", near)];
            // an instruction that is cut short stands at the code's end, and one before it in the same four bytes ends the run
            let places = if refusal == 2 { &times[..1] } else { &times };
            report.reached(&format!("refused {refusal} where a slot had another instruction"), places);
        }
        report.happened("refused 7 at a jump that was not taken before", self.refused[7][2]);
        for (word, after) in WORDS.iter().zip(&self.pairs[1..]) {
            let least = after[1..].iter().min().copied().unwrap_or(0);
            report.happened(&format!("each instruction after {word}, the rarest"), least);
        }
        report.happened("runs that started behind 0", self.starts[0]);
        report.happened("runs that started at the code's end", self.starts[1]);
        report.happened("runs of one step by their budget", self.budget_one);
    }
}
