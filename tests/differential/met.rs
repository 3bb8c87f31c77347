//! What the runs met of marks: how steps were refused with 10, and where a mark was named and yet did not matter. Which threads read a
//! half is said here by the words of the change request; the state before a step is the plain program's.

use crate::halves::{discarded, halves, is_mask, of_sources};
use crate::kernels::Run;
use crate::plain::calls::words;
use crate::plain::decode::decode;
use crate::plain::form::Fields;
use crate::plain::run;
use crate::report::Report;
use crate::running::Left;

const THREADS: usize = 32;
/// So many steps of a run are looked at, from its start.
const LOOKED_AT: usize = 16;
/// The kinds of the byte form that compare.
const IF: u8 = 20;
const WHILE: u8 = 21;
const ELSE: u8 = 22;

/// Each must have been met at least once.
#[derive(Clone, Copy)]
enum What {
    Active,
    ActiveA,
    ActiveB,
    ActiveC,
    Inactive,
    ComparingIf,
    ComparingWhile,
    ComparingElse,
    NotComparing,
    R0lActive,
    R0lInactive,
    R0lOfPop,
    MarkedAndCleared,
    OtherThanOne,
    KeptByRun,
    NoThread,
    NoThreadDiscards,
    DiscardNotComparing,
    DiscardR0l,
    AfterFive,
    FiveAndR0l,
    Twice,
    Long,
}
use What::*;

const WHATS: [(What, &str); 23] = [
    (Active, "refused 10 by an active thread"),
    (ActiveA, "refused 10 by source A alone"),
    (ActiveB, "refused 10 by source B alone"),
    (ActiveC, "refused 10 by source C alone"),
    (Inactive, "not refused 10, a half being marked in inactive threads alone"),
    (ComparingIf, "refused 10 by a thread that if_icmp compares"),
    (ComparingWhile, "refused 10 by a thread that while_icmp compares"),
    (ComparingElse, "refused 10 by a thread that else_icmp compares"),
    (NotComparing, "not refused 10, a half being marked in threads alone that do not compare"),
    (R0lActive, "refused 10 by r0l of an active thread"),
    (R0lInactive, "refused 10 by r0l of inactive threads alone"),
    (R0lOfPop, "refused 10 by r0l in pop_exec 0"),
    (MarkedAndCleared, "half discarded and written by a step, in some threads and not in others"),
    (OtherThanOne, "refused 10 by marks of 2 or 255 alone"),
    (KeptByRun, "byte other than 0 and 1 left as it was by a run with steps"),
    (NoThread, "not refused 10, no thread being active"),
    (NoThreadDiscards, "discards in a data step, no thread being active"),
    (DiscardNotComparing, "discards in a mask step, some threads not comparing"),
    (DiscardR0l, "r0l discarded by a mask step"),
    (AfterFive, "refused 5 where an active thread reads a marked half"),
    (FiveAndR0l, "refused 5 where r0l is marked"),
    (Twice, "half discarded twice in a step"),
    (Long, "more than 100 steps with other marks after them"),
];

#[derive(Default)]
pub struct Met([u64; WHATS.len()]);

/// What stands before a step.
struct Before<'a> {
    fields: Fields,
    r0l: Vec<u32>,
    marks: &'a [u8],
    mask: u32,
}

impl Met {
    /// Counts a run by what it left, and its first steps.
    pub fn count(&mut self, run: &Run, left: &Left) {
        let number = |at: usize| words(&left.answer[at..at + 4])[0];
        self.step_through(run, number(8) as usize);
        let kept = run.marks.iter().zip(&left.marks).any(|(before, after)| *before > 1 && before == after);
        self.met(KeptByRun, kept && number(8) > 0);
        self.met(Long, number(8) > 100 && left.marks != run.marks);
        if let (5 | 10, Ok(instruction)) = (number(4), decode(&run.code[number(16) as usize..])) {
            let fields = Fields::of(&instruction);
            let before = Before { fields, r0l: r0l_of(&words(&left.registers)), marks: &left.marks, mask: number(12) };
            self.refused(&before, number(4));
        }
    }

    pub fn report(&self, report: &mut Report) {
        for ((_, what), times) in WHATS.iter().zip(self.0) {
            report.happened(&format!("run, {what}"), times);
        }
    }

    fn met(&mut self, what: What, happened: bool) {
        self.0[what as usize] += happened as u64;
    }

    /// Makes the first steps of a run again, one at a time.
    fn step_through(&mut self, lent: &Run, steps: usize) {
        let [mut registers, uniforms, specials] =
            [&lent.registers, &lent.uniforms, &lent.specials].map(|all| words(all));
        let (mut marks, mut address, mut mask) = (lent.marks.clone(), lent.start, lent.mask);
        for _ in 0..steps.min(LOOKED_AT) {
            let instruction = decode(&lent.code[address..]).expect("an instruction that was stepped");
            let (fields, r0l) = (Fields::of(&instruction), r0l_of(&registers));
            self.stepped(&Before { fields, r0l, marks: &marks, mask });
            let mut record = [0; 16];
            let code = &lent.code;
            let answer = run(code, &mut registers, &mut marks, &uniforms, &specials, address, mask, 1, &mut record);
            (address, mask) = (answer.address, answer.mask);
        }
    }

    /// A step that was made.
    fn stepped(&mut self, before: &Before) {
        let Before { fields, mask, .. } = before;
        let named = before.marked(&of_sources(fields)) != 0;
        let mut off = discarded(fields);
        let count = off.len();
        if is_mask(fields) {
            self.met(NotComparing, named);
            self.met(DiscardNotComparing, count > 0 && before.readers() != u32::MAX);
            self.met(DiscardR0l, off.contains(&0));
        } else {
            self.met(Inactive, named && *mask != 0);
            self.met(NoThread, named && *mask == 0);
            self.met(NoThreadDiscards, count > 0 && *mask == 0);
            let partly = !matches!(*mask, 0 | u32::MAX);
            self.met(MarkedAndCleared, partly && off.iter().any(|half| halves(&fields.d).contains(half)));
        }
        off.sort();
        off.dedup();
        self.met(Twice, off.len() < count);
    }

    /// A step that was refused with 10, or with 5 where it might have been 10.
    fn refused(&mut self, before: &Before, number: u32) {
        let Before { fields, mask, .. } = before;
        let readers = before.readers();
        let [a, b, c] = fields.sources.map(|source| before.marked(&halves(&source).collect::<Vec<_>>()) & readers != 0);
        let r0l = if is_mask(fields) { before.marked(&[0]) } else { 0 };
        if number == 5 {
            self.met(AfterFive, !is_mask(fields) && (a || b || c));
            self.met(FiveAndR0l, r0l != 0);
            return;
        }
        self.met(OtherThanOne, before.are_other_than_one());
        if is_mask(fields) {
            self.met(R0lActive, r0l & mask != 0);
            self.met(R0lInactive, r0l != 0 && r0l & mask == 0);
            self.met(R0lOfPop, fields.kind < IF && fields.n == 0);
            for (what, kind) in [(ComparingIf, IF), (ComparingWhile, WHILE), (ComparingElse, ELSE)] {
                self.met(what, r0l == 0 && fields.kind == kind);
            }
        } else {
            self.met(Active, true);
            self.met(ActiveA, a && !b && !c);
            self.met(ActiveB, b && !a && !c);
            self.met(ActiveC, c && !a && !b);
        }
    }
}

impl Before<'_> {
    /// The threads that have a mark at one of these halves; a half whose register is not lent has none.
    fn marked(&self, halves: &[usize]) -> u32 {
        let lent = halves.iter().filter_map(|half| self.marks.get(THREADS * half..THREADS * (half + 1)));
        lent.flat_map(|marks| marks.iter().enumerate())
            .filter(|(_, mark)| **mark != 0)
            .fold(0, |all, (t, _)| all | 1 << t)
    }

    /// The threads that read the sources: the active ones, or those that compare.
    fn readers(&self) -> u32 {
        let n = self.fields.n as u32;
        let compares: fn(u32, u32) -> bool = match self.fields.kind {
            IF => |r0l, _| r0l == 0,
            WHILE => |r0l, n| r0l < n,
            ELSE => |r0l, _| r0l == 1,
            _ => return self.mask,
        };
        (0..THREADS).fold(0, |all, t| all | (compares(self.r0l[t], n) as u32) << t)
    }

    /// Whether no mark that is read is 1, and one is 2 or 255.
    fn are_other_than_one(&self) -> bool {
        let readers = self.readers();
        let mut read: Vec<usize> = Vec::new();
        let of = |half: usize, threads: u32| {
            (0..THREADS).filter(move |t| threads & 1 << t != 0).map(move |t| THREADS * half + t)
        };
        of_sources(&self.fields).into_iter().for_each(|half| read.extend(of(half, readers)));
        if is_mask(&self.fields) {
            read.extend(of(0, u32::MAX));
        }
        let values: Vec<u8> = read.into_iter().map(|at| self.marks[at]).collect();
        !values.contains(&1) && values.iter().any(|mark| matches!(mark, 2 | 255))
    }
}

fn r0l_of(registers: &[u32]) -> Vec<u32> {
    registers[..THREADS].iter().map(|word| word & 0xFFFF).collect()
}
