//! Marks from one instruction to the next, directed, and instructions that read no half.

use crate::assemble::{Code, Op, Op::*, Sum, Term};
use crate::directed::{halves, Case, ALL, SOME};

/// The bytes of the iadd that `add` writes.
const ADD: usize = 8;

fn add(code: &mut Code, d: Op, a: Op) {
    code.iadd(d, Term(a, false), Term(Imm(1), false), Sum::default());
}

/// What is discarded and then read, half by half; what is written in between.
pub fn read_again() -> Vec<Case> {
    let mut cases = Vec::new();
    for op in [Lo(3), Hi(3), Reg(3), Pair(3)] {
        for half in 5..11 {
            let part = if half % 2 == 0 { Lo(half / 2) } else { Hi(half / 2) };
            let text = format!("{op:?} discarded, then half {half} read");
            let mut case = Case::new(&text, 2, |code| {
                add(code, Reg(6), op.discard());
                add(code, Reg(7), part);
            });
            case.left.set(&halves(op), ALL, 1);
            if halves(op).contains(&(half as usize)) {
                case.refuse(10, 1, ADD);
                let mut written = Case::new(&format!("{text}, written before"), 3, |code| {
                    add(code, Reg(6), op.discard());
                    add(code, part, Imm(7));
                    add(code, Reg(7), part);
                });
                written.left.set(&halves(op), ALL, 1);
                written.left.set(&[half as usize], ALL, 0);
                cases.push(written);
            }
            cases.push(case);
        }
    }
    cases
}

/// A register that is discarded and written by some threads, and read when all are active.
pub fn read_by_others() -> Vec<Case> {
    let both = |code: &mut Code| {
        add(code, Reg(3), Reg(3).discard());
        code.pop_exec(1);
        add(code, Reg(6), Reg(3));
    };
    let mut refused = Case::new("discarded and written by some threads, read by all", 3, both);
    refused.mask = SOME;
    refused.r0l = std::array::from_fn(|t| (SOME & 1 << t == 0) as u16);
    refused.left.set(&[6, 7], !SOME, 1);
    refused.refuse(10, 2, ADD + 6);
    let whole = Case::new("discarded and written by all threads, read by all", 3, both);
    let mut rest = Case::new("discarded and written by some threads, read by these", 2, |code| {
        add(code, Reg(3), Reg(3).discard());
        add(code, Reg(6), Reg(3));
    });
    rest.mask = SOME;
    rest.left.set(&[6, 7], !SOME, 1);
    vec![refused, whole, rest]
}

/// The same half read or discarded twice in one step.
pub fn twice() -> Vec<Case> {
    let sources = [(Reg(3).discard(), Reg(3).discard()), (Reg(3), Reg(3).discard()), (Reg(3).discard(), Lo(3))];
    let case = |(a, b): (Op, Op)| {
        let mut case = Case::new("discarded and read in one step", 1, |code| {
            code.iadd(Hi(3), Term(a, false), Term(b, false), Sum::default())
        });
        case.mask = SOME;
        case.left.set(&[6, 7], ALL, 1);
        case.left.set(&[7], SOME, 0);
        case
    };
    sources.map(case).to_vec()
}

/// With everything marked: what reads no half goes on, and refusals before 10 and for jumps are as without marks.
pub fn all_marked() -> Vec<Case> {
    let mut cases = Vec::new();
    let mut case = |what: &str, number: u8, written: &[usize], write: &dyn Fn(&mut Code)| {
        for (mask, value) in [(ALL, 1), (SOME, 2), (1, 255)] {
            let mut case = Case::new(&format!("all marked, {what}"), 1, write);
            case.mask = mask;
            case.lend(&(0..24).collect::<Vec<_>>(), ALL, value);
            case.left.set(written, mask, 0);
            if number > 0 {
                case.refuse(number, 0, 0);
            }
            cases.push(case);
        }
    };
    case("mov16", 0, &[6], &|code| code.mov16(Lo(3), 1));
    case("mov32", 0, &[6, 7], &|code| code.mov32(Reg(3), 1));
    case("get_sr", 0, &[7], &|code| code.get_sr(Hi(3), 0));
    case("get_sr of a special register that is not lent", 6, &[], &|code| code.get_sr(Hi(3), 1));
    case("sums of immediates and uniforms", 0, &[6, 7, 8, 9], &|code| {
        code.imadd(Pair(3), Term(Imm(3), false), Term(U(7), false), Term(UPair(9), false), Sum::default())
    });
    case("a jump that is taken", 0, &[], &|code| code.jmp_exec_any(6));
    case("a jump that is not taken", 0, &[], &|code| {
        code.jmp_exec_none();
    });
    case("a jump astray", 7, &[], &|code| code.jmp_exec_any(8));
    case("a source that is not lent", 5, &[], &|code| add(code, Reg(3), Reg(16)));
    case("a destination that is not lent", 5, &[], &|code| add(code, Reg(16), Reg(3)));
    case("a pair half of which is not lent", 5, &[], &|code| add(code, Reg(3), Pair(15)));
    case("a source that is lent", 10, &[], &|code| add(code, Reg(3), Reg(4)));
    case("pop_exec", 10, &[], &|code| code.pop_exec(0));
    cases
}
