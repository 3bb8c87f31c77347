//! Data instructions and the marks, directed: which halves a source marks, which a destination clears, and which threads are refused.

use crate::assemble::{Asr, Code, Field, Op, Op::*, Scan, Sum, Term};
use crate::directed::{each_with, halves, Case, ALL, SOME};

type Write = fn(&mut Code, Op, [Op; 3]);

/// The data instructions that have sources: how many, and how many of the last may be pairs.
const DATA: [(&str, usize, usize, Write); 13] = [
    ("iadd", 2, 2, |code, d, [a, b, _]| code.iadd(d, Term(a, false), Term(b, true), Sum::default())),
    ("imadd", 3, 1, |code, d, [a, b, c]| code.imadd(d, Term(a, false), Term(b, true), Term(c, false), Sum::default())),
    ("bfi", 3, 0, |code, d, all| code.field(Field::Bfi, d, all, 3)),
    ("bfeil", 3, 0, |code, d, all| code.field(Field::Bfeil, d, all, 3)),
    ("extr", 3, 0, |code, d, all| code.field(Field::Extr, d, all, 3)),
    ("shlhi", 3, 0, |code, d, all| code.field(Field::Shlhi, d, all, 3)),
    ("shrhi", 3, 0, |code, d, all| code.field(Field::Shrhi, d, all, 3)),
    ("asr", 2, 0, |code, d, [a, b, _]| code.asr(Asr::Low, d, a, b)),
    ("asrh", 2, 0, |code, d, [a, b, _]| code.asr(Asr::High, d, a, b)),
    ("bitop", 2, 0, |code, d, [a, b, _]| code.bitop(d, a, b, 6)),
    ("bitrev", 1, 0, |code, d, [a, ..]| code.scan(Scan::Bitrev, d, a)),
    ("popcount", 1, 0, |code, d, [a, ..]| code.scan(Scan::Popcount, d, a)),
    ("ffs", 1, 0, |code, d, [a, ..]| code.scan(Scan::Ffs, d, a)),
];

const PLACES: [&str; 3] = ["A", "B", "C"];
const REGISTERS: [Op; 4] = [Lo(3), Hi(3), Reg(3), Pair(3)];
/// With numbers that registers which are lent have, too.
const OTHERS: [[Op; 4]; 3] =
    [[ULo(0), UHi(0), U(0), UPair(0)], [ULo(3), UHi(3), U(3), UPair(3)], [Imm(0), Imm(1), Imm(6), Imm(7)]];

/// Each instruction with each of these operands, the last of which is 64 bits wide, in each place that can have it, and immediates in the
/// others: its name with the place, the operand and how it is written.
fn each(ops: [Op; 4], mut case: impl FnMut(&str, Op, &dyn Fn(&mut Code, Op, Op))) {
    for (name, sources, pairs, write) in DATA {
        for place in 0..sources {
            let widest = if place + pairs >= sources { 4 } else { 3 };
            for op in &ops[..widest] {
                let written = |code: &mut Code, d: Op, source: Op| {
                    let mut all = [Imm(1); 3];
                    all[place] = source;
                    write(code, d, all);
                };
                case(&format!("{name}, {} is {op:?}", PLACES[place]), *op, &written);
            }
        }
    }
}

/// A source that discards: its halves are marked in every thread, then those of the destination clear in the active ones.
pub fn discards() -> Vec<Case> {
    let mut cases = Vec::new();
    each(REGISTERS, |what, op, write| {
        for (d, mask) in each_with(&[Reg(6), Reg(3), Lo(3), Hi(4)], &[ALL, SOME, 0, 1]) {
            let text = format!("{what}, discarded, and {d:?} written");
            let mut case = Case::new(&text, 1, |code| write(code, d, op.discard()));
            case.mask = mask;
            // the destination's marks are no read
            case.lend(&halves(d), ALL, 255);
            case.lend(&halves(op), mask, 0);
            case.lend(&halves(op), !mask, 2);
            case.left.set(&halves(op), ALL, 1);
            case.left.set(&halves(d), mask, 0);
            cases.push(case);
        }
    });
    cases
}

/// A source of which one half is marked in one thread: refused if the thread is active. The halves beside it don't matter.
pub fn reads() -> Vec<Case> {
    let mut cases = Vec::new();
    each(REGISTERS, |what, op, write| {
        for (half, (thread, value)) in each_with(&halves(op), &[(0, 1), (9, 2), (31, 255), (17, 128)]) {
            let own = 1 << thread;
            for (mask, source) in each_with(&[own, ALL, !own, 0], &[op, op.discard()]) {
                let text = format!("{what}, half {half} marked {value} in thread {thread}");
                let mut case = Case::new(&text, 1, |code| write(code, Reg(6), source));
                case.mask = mask;
                case.lend(&beside(op), ALL, 1);
                case.lend(&[half], own, value);
                if mask & own != 0 {
                    case.refuse(10, 0, 0);
                } else if source != op {
                    case.left.set(&halves(op), ALL, 1);
                }
                cases.push(case);
            }
        }
    });
    cases
}

/// Immediates and uniforms with every half marked: not refused.
pub fn no_halves() -> Vec<Case> {
    let mut cases = Vec::new();
    for (ops, mask) in each_with(&OTHERS, &[ALL, SOME]) {
        each(ops, |what, op, write| {
            let mut case = Case::new(&format!("{what}, every half marked"), 1, |code| write(code, Reg(6), op));
            case.mask = mask;
            case.lend(&(0..24).collect::<Vec<_>>(), ALL, 2);
            case.left.set(&[12, 13], mask, 0);
            cases.push(case);
        });
    }
    cases
}

/// The halves before and behind an operand's.
fn beside(op: Op) -> [usize; 2] {
    let own = halves(op);
    [own[0] - 1, own[0] + own.len()]
}
