//! The threads by themselves. The steps of a run are done again one thread at a time, in any order that keeps each thread's own: a visit
//! is a run of one instruction in which all threads are copies of the one. Registers, marks and mask must be those that the run left.

use crate::exported;
use crate::kernels::{self, Run};
use crate::plain::calls::{words, Call, ANSWER_BYTES};
use crate::random::Random;
use crate::report::Report;
use crate::running::{Left, Rooms};

const GROUP: u64 = 40;
const THREADS: usize = 32;
/// What is copied for each visit is kept small.
const MOST_STEPS: usize = 40;
const MOST_REGISTERS: usize = 20;
const MOST_SPECIALS: usize = 8;
/// The last class of a record that is no jump.
const MASK: u8 = 2;

/// The state that the visits change.
struct Machine {
    registers: Vec<u8>,
    marks: Vec<u8>,
    mask: u32,
}

pub fn compare(report: &mut Report, seed: u64, cases: u64) {
    let mut rooms = Rooms::new();
    let (mut visits, mut marking, mut apart) = (0, 0, 0);
    report.compare("run, the threads by themselves", cases, |number| {
        let random = &mut Random::of_case(seed, GROUP, number);
        let run = small(random);
        let (left, difference) = rooms.held(&run, random);
        let steps = words(&left.answer)[2] as usize;
        visits += (THREADS * steps) as u64;
        marking += (left.marks != run.marks) as u64;
        apart += left.marks.chunks(THREADS).any(|half| half.contains(&0) && half.contains(&1)) as u64;
        difference.or_else(|| revisited(&run, &left, steps, random))
    });
    report.happened("visits of threads by themselves", visits);
    report.happened("runs of which threads by themselves changed marks", marking);
    report
        .happened("runs of which threads by themselves left a half marked in some threads and clear in others", apart);
}

/// A run of few steps that is well arranged, and makes one at least.
fn small(random: &mut Random) -> Run {
    loop {
        let mut run = kernels::run(random);
        let fits = run.registers.len() <= 128 * MOST_REGISTERS && run.specials.len() <= 128 * MOST_SPECIALS;
        if fits && run.start < run.code.len() {
            run.budget = run.budget.min(MOST_STEPS);
            return run;
        }
    }
}

/// The text of a difference between what the visits of all steps leave and what the run left.
fn revisited(run: &Run, left: &Left, steps: usize, random: &mut Random) -> Option<String> {
    let mut machine = Machine { registers: run.registers.clone(), marks: run.marks.clone(), mask: run.mask };
    let specials: Vec<Vec<u8>> = (0..THREADS).map(|thread| copies(&run.specials, 4, thread)).collect();
    let mut done = [0; THREADS];
    while let Some(thread) = next(random, &done, steps) {
        let record = &left.records[16 * done[thread]..];
        let address = u16::from_le_bytes([record[0], record[1]]) as usize;
        done[thread] += 1;
        if record[3] <= MASK && machine.visit(run, &specials[thread], thread, address) != 0 {
            return Some(format!("the visit of thread {thread} at step {} is refused", done[thread]));
        }
    }
    let same = [
        ("registers", machine.registers == left.registers),
        ("marks", machine.marks == left.marks),
        ("the mask", machine.mask == words(&left.answer)[3]),
    ];
    let wrong: Vec<&str> = same.iter().filter(|(_, same)| !same).map(|(what, _)| *what).collect();
    (!wrong.is_empty()).then(|| format!("after {steps} steps the visits leave other {}", wrong.join(" and ")))
}

/// A thread that has steps to do.
fn next(random: &mut Random, done: &[usize], steps: usize) -> Option<usize> {
    let first = random.below(THREADS);
    (first..first + THREADS).map(|thread| thread % THREADS).find(|thread| done[*thread] < steps)
}

/// The same with every thread's items, of so many bytes each, those of one thread.
fn copies(bytes: &[u8], item: usize, thread: usize) -> Vec<u8> {
    bytes.chunks(item * THREADS).flat_map(|all| all[item * thread..][..item].repeat(THREADS)).collect()
}

/// Puts a thread's items back.
fn put(all: &mut [u8], copied: &[u8], item: usize, thread: usize) {
    let (own, room) = (item * thread, item * THREADS);
    for (all, copied) in all.chunks_mut(room).zip(copied.chunks(room)) {
        all[own..own + item].copy_from_slice(&copied[own..own + item]);
    }
}

impl Machine {
    /// Does the instruction at `address` for one thread; the number that the call gives.
    fn visit(&mut self, run: &Run, specials: &[u8], thread: usize, address: usize) -> i32 {
        let (mut registers, mut marks) = (copies(&self.registers, 4, thread), copies(&self.marks, 1, thread));
        let mut answer = [0; ANSWER_BYTES];
        let given = exported::run(Call {
            code: &run.code,
            registers: &mut registers,
            marks: &mut marks,
            uniforms: &run.uniforms,
            specials,
            start: address,
            mask: if self.mask & 1 << thread != 0 { u32::MAX } else { 0 },
            budget: 1,
            records: &mut [0; 16],
            answer: &mut answer,
        });
        put(&mut self.registers, &registers, 4, thread);
        put(&mut self.marks, &marks, 1, thread);
        self.mask = self.mask & !(1 << thread) | words(&answer)[3] & 1 << thread;
        given
    }
}
