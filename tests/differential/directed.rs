//! Runs whose number, steps and marks are known from how they were made, by the words of the change request and not by the plain
//! program. Both programs are held to that.

use crate::assemble::{Code, Op};
use crate::kernels::Run;
use crate::random::Random;
use crate::report::{hex, Report};
use crate::running::{plain, Left, Rooms};
use crate::{discarding, following, masking};

const GROUP: u64 = 30;
pub const ALL: u32 = u32::MAX;
/// A mask with active threads and others; the first thread is active, the last is not.
pub const SOME: u32 = 0x5A5A_3C97;
const THREADS: usize = 32;
const REGISTERS: usize = 16;
/// The halves from here on are named by no case; their marks are to stay as they are.
const UNNAMED: usize = 24;

/// A run of some instructions, and what it is to leave.
#[derive(Clone)]
pub struct Case {
    pub what: String,
    pub code: Vec<u8>,
    pub mask: u32,
    pub r0l: [u16; THREADS],
    pub marks: Marks,
    /// The refusal, or 0; the steps before it; its address.
    pub number: u8,
    pub steps: usize,
    pub address: usize,
    pub left: Marks,
}

/// The marks of all halves and threads.
#[derive(Clone)]
pub struct Marks(Vec<u8>);

impl Marks {
    pub fn new() -> Marks {
        let unnamed = |at: usize| [0, 1, 2, 255, at as u8][at % 5];
        Marks((0..2 * THREADS * REGISTERS).map(|at| if at < THREADS * UNNAMED { 0 } else { unnamed(at) }).collect())
    }

    /// Sets the marks of these halves in the threads of `threads`.
    pub fn set(&mut self, halves: &[usize], threads: u32, value: u8) {
        for half in halves {
            for t in (0..THREADS).filter(|t| threads & 1 << t != 0) {
                self.0[THREADS * half + t] = value;
            }
        }
    }
}

/// The halves of an operand.
pub fn halves(op: Op) -> Vec<usize> {
    match op {
        Op::Lo(r) | Op::DiscardLo(r) => vec![2 * r as usize],
        Op::Hi(r) | Op::DiscardHi(r) => vec![2 * r as usize + 1],
        Op::Reg(r) | Op::DiscardReg(r) => vec![2 * r as usize, 2 * r as usize + 1],
        Op::Pair(r) | Op::DiscardPair(r) => (2 * r as usize..2 * r as usize + 4).collect(),
        _ => Vec::new(),
    }
}

/// Each of the first with each of the second.
pub fn each_with<A: Copy, B: Copy>(first: &[A], second: &[B]) -> Vec<(A, B)> {
    first.iter().flat_map(|a| second.iter().map(|b| (*a, *b))).collect()
}

impl Case {
    /// A run to the end of the code that leaves the marks as they were lent; r0l is 0 in every thread.
    pub fn new(what: &str, steps: usize, write: impl Fn(&mut Code)) -> Case {
        let mut code = Code::default();
        write(&mut code);
        let (code, what, marks) = (code.0, what.to_string(), Marks::new());
        let (address, left) = (code.len(), marks.clone());
        Case { what, code, mask: ALL, r0l: [0; THREADS], marks, number: 0, steps, address, left }
    }

    /// Marks that are lent, and stay unless something more is said.
    pub fn lend(&mut self, halves: &[usize], threads: u32, value: u8) {
        self.marks.set(halves, threads, value);
        self.left.set(halves, threads, value);
    }

    /// The run ends at this address, after so many steps; what is left stays to be said.
    pub fn refuse(&mut self, number: u8, steps: usize, address: usize) {
        (self.number, self.steps, self.address) = (number, steps, address);
    }

    fn run(&self, random: &mut Random) -> Run {
        let mut registers = random.bytes(128 * REGISTERS);
        for (word, r0l) in registers.chunks_mut(4).zip(self.r0l) {
            word[..2].copy_from_slice(&r0l.to_le_bytes());
        }
        Run {
            code: self.code.clone(),
            registers,
            marks: self.marks.0.clone(),
            uniforms: random.bytes(1024),
            specials: random.bytes(128),
            start: 0,
            mask: self.mask,
            budget: 8,
            records: vec![0xA5; 128],
            answer: vec![0xA5; 24],
        }
    }

    /// Whether a program left what it is to leave.
    fn held(&self, run: &Run, left: &Left) -> bool {
        let number = |at: usize| u32::from_le_bytes(left.answer[at..at + 4].try_into().expect("four bytes"));
        let ending = if self.number == 0 { 0 } else { 2 };
        let told = [number(0), number(4), number(8), number(16), number(20)];
        let nothing_done = self.steps > 0 || (left.registers == run.registers && number(12) == run.mask);
        left.given == -(self.number as i32)
            && told == [ending, self.number as u32, self.steps as u32, self.address as u32, 0]
            && left.marks == self.left.0
            && left.records[16 * self.steps..].iter().all(|byte| *byte == 0xA5)
            && nothing_done
    }

    fn told(&self, who: &str, left: &Left) -> String {
        let Marks(want) = &self.left;
        let wrong = (0..want.len()).find(|at| want[*at] != left.marks[*at]);
        let mark = |at: usize| format!("half {}, thread {}: {} for {}", at / 32, at % 32, left.marks[at], want[at]);
        let wanted = format!("refused {}, {} steps, address {}", self.number, self.steps, self.address);
        let (code, answer) = (hex(&self.code), hex(&left.answer));
        let marks = wrong.map_or("marks as wanted".to_string(), mark);
        format!(
            "{}\n  mask {:08X}, code {code}\n  wanted {wanted}\n  {who} {}, answer {answer}; {marks}",
            self.what, self.mask, left.given
        )
    }
}

/// Holds both programs to all cases.
pub fn compare_all(report: &mut Report, seed: u64) {
    let groups = [
        ("a source discards", discarding::discards()),
        ("a source is marked", discarding::reads()),
        ("a source that has no halves", discarding::no_halves()),
        ("r0l is marked in a mask instruction", masking::r0l()),
        ("what is compared is marked", masking::compared()),
        ("what is not compared is marked", masking::not_compared()),
        ("what is compared has no halves", masking::no_halves()),
        ("a source of a mask instruction discards", masking::discards()),
        ("what was discarded is read", following::read_again()),
        ("what some threads discarded is read", following::read_by_others()),
        ("a half discarded twice in a step", following::twice()),
        ("everything is marked", following::all_marked()),
    ];
    for (what, cases) in &groups {
        compare(report, &format!("marks, {what}"), seed, cases);
    }
}

fn compare(report: &mut Report, group: &str, seed: u64, cases: &[Case]) {
    let mut rooms = Rooms::new();
    report.compare(group, cases.len() as u64, |number| {
        let random = &mut Random::of_case(seed, GROUP, number);
        let case = &cases[number as usize];
        let run = case.run(random);
        let programs = [("plain", plain(&run)), ("proved", rooms.exported(&run, random))];
        let wrong = programs.iter().find(|(_, left)| !case.held(&run, left));
        let beside = (!rooms.intact()).then(|| format!("{}: something was written beside the buffers", case.what));
        wrong.map(|(who, left)| case.told(who, left)).or(beside)
    });
}
