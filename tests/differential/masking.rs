//! Mask instructions and the marks, directed: r0l is read and written in every thread, what is compared in the threads that compare.

use crate::assemble::{Cc, Icmp, Op, Op::*};
use crate::directed::{each_with, halves, Case, ALL, SOME};

type Compares = fn(u16, u64) -> bool;

/// The instructions that compare, and in which threads, by r0l and n.
const COMPARING: [(&str, Icmp, Compares); 3] = [
    ("if_icmp", Icmp::If, |r0l, _| r0l == 0),
    ("while_icmp", Icmp::While, |r0l, n| (r0l as u64) < n),
    ("else_icmp", Icmp::Else, |r0l, _| r0l == 1),
];

/// r0l in each thread, the values around which it matters.
const VALUES: [u16; 8] = [0, 1, 2, 3, 4, 255, 256, 65535];

/// Each instruction with each n; its name, n, and how it compares two operands.
fn each(mut case: impl FnMut(&str, u64, Icmp, Compares)) {
    for (name, which, compares) in COMPARING {
        for n in 0..4 {
            case(&format!("{name} {n}"), n, which, compares);
        }
    }
}

fn comparing(what: &str, which: Icmp, n: u64, a: Op, b: Op) -> Case {
    let mut case = Case::new(what, 1, |code| code.icmp(which, n, a, Cc::Less, b));
    case.r0l = std::array::from_fn(|t| VALUES[t % VALUES.len()]);
    case
}

fn popping(n: u64) -> Case {
    let mut case = Case::new(&format!("pop_exec {n}"), 1, |code| code.pop_exec(n));
    case.r0l = std::array::from_fn(|t| VALUES[t % VALUES.len()]);
    case
}

/// r0l marked in one thread, active or not: always refused.
pub fn r0l() -> Vec<Case> {
    let mut whole: Vec<Case> = (0..4).map(popping).collect();
    each(|name, n, which, _| whole.push(comparing(name, which, n, Reg(3), Imm(1))));
    let mut cases = Vec::new();
    for case in whole {
        for (thread, value) in (0..32).zip([1, 2, 255, 128].into_iter().cycle()) {
            for mask in [ALL, 0, SOME, 1 << thread, !(1 << thread)] {
                let mut case = case.clone();
                case.what += &format!(", r0l marked {value} in thread {thread}");
                case.mask = mask;
                case.lend(&[0], 1 << thread, value);
                case.refuse(10, 0, 0);
                cases.push(case);
            }
        }
    }
    cases
}

/// A half of A or B marked in one thread: refused if that thread compares, whether it is active or not.
pub fn compared() -> Vec<Case> {
    let mut cases = Vec::new();
    each(|name, n, which, compares| {
        for op in [Lo(3), Hi(3), Reg(3)] {
            for (half, thread) in each_with(&halves(op), &[8, 9, 10, 11, 12, 13, 14, 15]) {
                for (k, mask) in [ALL, 0, 1 << thread, !(1 << thread)].into_iter().enumerate() {
                    let (a, b) = if k % 2 == 0 { (op, Imm(1)) } else { (Imm(1), op) };
                    let mut case = comparing(&format!("{name}, half {half} marked in thread {thread}"), which, n, a, b);
                    case.mask = mask;
                    case.lend(&[5, 8, 1], ALL, 1);
                    case.lend(&[half], 1 << thread, [1, 2, 255, 128][k]);
                    if compares(case.r0l[thread], n) {
                        case.refuse(10, 0, 0);
                    }
                    cases.push(case);
                }
            }
        }
    });
    cases
}

/// A half of A or B marked in exactly the threads that do not compare: never refused.
pub fn not_compared() -> Vec<Case> {
    let mut cases = Vec::new();
    each(|name, n, which, compares| {
        for (op, mask) in each_with(&[Lo(3), Hi(3), Reg(3)], &[ALL, 0, SOME]) {
            let mut case = comparing(&format!("{name}, {op:?} marked where nothing is compared"), which, n, op, op);
            let others = (0..32).filter(|t| !compares(case.r0l[*t], n)).fold(0, |all, t| all | 1 << t);
            case.mask = mask;
            case.lend(&halves(op), others, 2);
            cases.push(case);
        }
    });
    cases
}

/// Immediates and uniforms with every half but r0l marked: not refused.
pub fn no_halves() -> Vec<Case> {
    let ops = [Imm(0), Imm(1), Imm(6), ULo(0), UHi(0), U(0), ULo(3), UHi(3), U(3)];
    let mut cases = Vec::new();
    each(|name, n, which, _| {
        for (op, mask) in each_with(&ops, &[ALL, 0, SOME]) {
            for (a, b) in [(op, Imm(1)), (Imm(1), op)] {
                let mut case = comparing(&format!("{name} of {a:?} and {b:?}, all but r0l marked"), which, n, a, b);
                case.mask = mask;
                case.lend(&(1..24).collect::<Vec<_>>(), ALL, 2);
                cases.push(case);
            }
        }
    });
    cases
}

/// A or B discards: its halves are marked in every thread, those that do not compare too, and r0l is clear.
pub fn discards() -> Vec<Case> {
    let mut cases = Vec::new();
    each(|name, n, which, _| {
        for (op, mask) in each_with(&[Lo(3), Hi(3), Reg(3), Lo(0), Hi(0), Reg(0)], &[ALL, 0, SOME]) {
            let off = op.discard();
            for (a, b) in [(off, Imm(1)), (Reg(4), off), (off, off), (op, off)] {
                let mut case = comparing(&format!("{name} of {a:?} and {b:?}"), which, n, a, b);
                case.mask = mask;
                case.left.set(&halves(op), ALL, 1);
                case.left.set(&[0], ALL, 0);
                cases.push(case);
            }
        }
    });
    cases
}
