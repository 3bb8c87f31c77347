//! The kernels that are timed, and what is lent to them. All but the last are loops that never end by themselves, so that a run
//! makes as many steps as its budget has.

use crate::assemble::{Asr, Cc, Code, Field, Icmp, Op, Op::*, Scan, Sum, Term};
use crate::plain::Ending;

pub const REGISTERS: usize = 128;
pub const SPECIALS: usize = 8;
pub const BUDGET: usize = 4096;

/// The most bytes that a run takes.
const CODE: usize = 8192;

/// A kernel, the mask that it starts with, and how its run ends.
pub struct Kernel {
    pub name: &'static str,
    pub code: Vec<u8>,
    pub mask: u32,
    pub ending: Ending,
}

/// What a run is lent besides the code.
pub struct Lent {
    pub registers: Vec<u32>,
    pub marks: Vec<u8>,
    pub uniforms: Vec<u32>,
    pub specials: Vec<u32>,
    pub records: Vec<u8>,
}

pub fn all() -> Vec<Kernel> {
    vec![
        looped("arithmetic, 16 bits", u32::MAX, arithmetic16),
        looped("arithmetic, 32 bits", u32::MAX, arithmetic32),
        looped("arithmetic, 64 bits", u32::MAX, arithmetic64),
        looped("arithmetic, half active", 0x5A5A_3C96, arithmetic32),
        looped("saturating sums", u32::MAX, saturating),
        looped("bitfields", u32::MAX, bitfields),
        looped("masks and jumps", u32::MAX, masks),
        looped("moves and scans", u32::MAX, moves),
        looped("scans", u32::MAX, scans),
        looped("pop_exec and jumps", u32::MAX, pops),
        looped("discards", u32::MAX, discards),
        looped("discards, half active", 0x5A5A_3C96, discards),
        straight("8 KB without a loop", u32::MAX),
    ]
}

/// Fixed pseudo-random contents for so many registers, at least 4, and special registers; all marks clear. r0 is 0, as the mask stack wants
/// it, and r1 to r3 are small.
pub fn lent(registers: usize, specials: usize) -> Lent {
    let mut state = 0x2545_F491_4F6C_DD1Du64;
    let mut word = || {
        state ^= state << 13;
        state ^= state >> 7;
        state ^= state << 17;
        (state >> 32) as u32
    };
    let marks = vec![0; 64 * registers];
    let mut registers: Vec<u32> = (0..32 * registers).map(|_| word()).collect();
    registers[..32].fill(0);
    registers[32..128].iter_mut().for_each(|value| *value %= 200);
    let uniforms = (0..256).map(|_| word()).collect();
    let specials = (0..32 * specials).map(|_| word()).collect();
    Lent { registers, marks, uniforms, specials, records: vec![0; 16 * BUDGET] }
}

/// The body, and a jump back to its start.
fn looped(name: &'static str, mask: u32, body: fn(&mut Code)) -> Kernel {
    let mut code = Code::default();
    body(&mut code);
    code.jmp_exec_any(0);
    Kernel { name, code: code.0, mask, ending: Ending::Spent }
}

/// As many data instructions as the longest code holds, each done once.
fn straight(name: &'static str, mask: u32) -> Kernel {
    let bodies = [arithmetic16, arithmetic32, moves, arithmetic64, bitfields, saturating, scans];
    let mut code = Code::default();
    for body in bodies.iter().cycle() {
        let mut next = Code::default();
        body(&mut next);
        if code.here() + next.here() > CODE {
            break;
        }
        code.0.append(&mut next.0);
    }
    if (CODE - code.here()) % 4 != 0 {
        code.mov16(Lo(4), 0x1234);
    }
    while code.here() < CODE {
        code.get_sr(Reg(5), 3);
    }
    Kernel { name, code: code.0, mask, ending: Ending::Finished }
}

fn unsigned(op: Op) -> Term {
    Term(op, false)
}

fn signed(op: Op) -> Term {
    Term(op, true)
}

fn shifted(shift: u64) -> Sum {
    Sum { shift, ..Sum::default() }
}

const MINUS: Sum = Sum { saturate: false, negate: true, shift: 0 };
const PLUS: Sum = Sum { saturate: false, negate: false, shift: 0 };
const XOR: u64 = 0b0110;
const AND: u64 = 0b1000;
const OR: u64 = 0b1110;

fn arithmetic16(code: &mut Code) {
    for r in 4..8 {
        code.iadd(Lo(r), unsigned(Lo(r)), unsigned(Hi(r + 40)), PLUS);
        code.imadd(Hi(r), unsigned(Lo(r)), signed(Lo(r + 8)), unsigned(Hi(r)), shifted(1));
        code.iadd(Lo(r + 8), unsigned(Hi(r)), signed(ULo(r)), MINUS);
        code.field(Field::Bfi, Lo(r + 16), [Lo(r), Hi(r + 8), Imm(5)], 7);
        code.field(Field::Bfeil, Hi(r + 16), [Hi(r), Lo(r + 40), Lo(1)], 9);
        code.asr(Asr::Low, Lo(r + 24), Hi(r), Imm(3));
        code.bitop(Lo(r), Lo(r), Hi(r + 24), XOR);
        code.imadd(Lo(r + 32), signed(Lo(r)), unsigned(Imm(77)), unsigned(UHi(r + 130)), PLUS);
        code.field(Field::Extr, Hi(r + 8), [Lo(r + 16), Hi(r + 24), Imm(6)], 0);
        code.bitop(Hi(r), Hi(r), Lo(r + 32), OR);
    }
}

fn arithmetic32(code: &mut Code) {
    for r in 4..8 {
        code.iadd(Reg(r), unsigned(Reg(r)), unsigned(Reg(r + 40)), PLUS);
        code.imadd(Reg(r + 8), unsigned(Reg(r)), signed(Reg(r + 48)), unsigned(Reg(r)), shifted(2));
        code.iadd(Reg(r + 16), unsigned(Reg(r + 8)), signed(U(r)), MINUS);
        code.field(Field::Bfi, Reg(r + 24), [Reg(r), Reg(r + 8), Imm(13)], 11);
        code.field(Field::Bfeil, Reg(r + 32), [Reg(r + 8), Reg(r), Lo(1)], 19);
        code.asr(Asr::Low, Reg(r + 56), Reg(r + 16), Imm(7));
        code.bitop(Reg(r), Reg(r), Reg(r + 56), XOR);
        code.imadd(Reg(r + 64), signed(Reg(r)), unsigned(Imm(77)), unsigned(U(r + 130)), PLUS);
        code.field(Field::Extr, Reg(r + 72), [Reg(r + 24), Reg(r + 32), Imm(21)], 0);
        code.bitop(Reg(r), Reg(r + 72), Reg(r + 64), OR);
    }
}

fn arithmetic64(code: &mut Code) {
    for r in [4, 6, 8, 10] {
        code.iadd(Pair(r), unsigned(Pair(r)), unsigned(Pair(r + 40)), PLUS);
        code.imadd(Pair(r + 10), unsigned(Reg(r)), signed(Reg(r + 48)), unsigned(Pair(r)), shifted(3));
        code.iadd(Pair(r + 20), unsigned(Pair(r + 10)), signed(UPair(r)), MINUS);
        code.imadd(Pair(r + 30), signed(Reg(r + 1)), unsigned(Reg(r)), signed(Pair(r + 10)), MINUS);
        code.field(Field::Shlhi, Reg(r + 60), [Reg(r), Reg(r + 1), Imm(9)], 0);
        code.field(Field::Shrhi, Reg(r + 61), [Reg(r + 11), Reg(r + 10), Lo(2)], 0);
        code.asr(Asr::High, Reg(r + 71), Reg(r + 21), Imm(37));
        code.bitop(Reg(r), Reg(r), Reg(r + 71), XOR);
        code.iadd(Pair(r), signed(Reg(r + 60)), unsigned(Pair(r + 30)), shifted(4));
        code.bitop(Reg(r + 1), Reg(r + 61), Reg(r + 1), OR);
    }
}

fn saturating(code: &mut Code) {
    let plus = Sum { saturate: true, ..PLUS };
    let minus = Sum { saturate: true, ..MINUS };
    for r in 4..8 {
        code.iadd(Reg(r), unsigned(Reg(r)), unsigned(Reg(r + 40)), minus);
        code.imadd(Reg(r + 8), signed(Reg(r)), signed(Reg(r + 48)), unsigned(Reg(r + 40)), plus);
        code.iadd(Lo(r + 16), signed(Reg(r + 8)), signed(Hi(r + 40)), plus);
        code.imadd(Hi(r + 16), unsigned(Lo(r)), unsigned(Imm(3)), unsigned(ULo(r)), minus);
        code.imadd(Reg(r), unsigned(Reg(r + 16)), unsigned(Lo(3)), unsigned(Reg(r + 8)), minus);
    }
}

fn bitfields(code: &mut Code) {
    let all = [Field::Bfi, Field::Bfeil, Field::Extr, Field::Shlhi, Field::Shrhi];
    for (r, field) in (4..).zip(all) {
        code.field(field, Reg(r), [Reg(r), Reg(r + 40), Lo(1)], 0);
        code.field(field, Reg(r + 8), [Reg(r), Reg(r + 41), Reg(2)], 12);
        code.field(field, Hi(r + 16), [Lo(r), Reg(r + 8), Imm(40)], 31);
        code.asr(Asr::Low, Reg(r + 24), Reg(r + 16), Lo(1));
        code.asr(Asr::High, Reg(r + 32), Reg(r + 24), Reg(3));
    }
}

/// Branches and loops: an if with an else, an if that is jumped over where no thread takes it, and a loop that each thread
/// leaves after its own number of turns.
fn masks(code: &mut Code) {
    code.imadd(Reg(4), unsigned(Reg(4)), unsigned(Imm(109)), unsigned(Imm(57)), PLUS);
    code.icmp(Icmp::If, 1, Reg(4), Cc::Less, Reg(44));
    code.iadd(Reg(5), unsigned(Reg(5)), unsigned(Imm(1)), PLUS);
    code.icmp(Icmp::If, 1, Reg(4), Cc::SignedGreater, U(9));
    code.iadd(Reg(6), unsigned(Reg(6)), unsigned(Imm(1)), PLUS);
    code.pop_exec(1);
    code.icmp(Icmp::Else, 1, Imm(0), Cc::Equal, Imm(0));
    code.iadd(Reg(7), unsigned(Reg(7)), unsigned(Imm(1)), PLUS);
    code.pop_exec(1);
    code.icmp(Icmp::If, 1, Lo(5), Cc::Equal, Imm(200));
    let over = code.jmp_exec_none();
    code.mov16(Lo(5), 0);
    code.land(over);
    code.pop_exec(1);
    code.field(Field::Bfeil, Reg(8), [Imm(0), Reg(4), Imm(13)], 2);
    let again = code.here();
    code.iadd(Reg(8), unsigned(Reg(8)), unsigned(Imm(1)), MINUS);
    code.icmp(Icmp::While, 1, Reg(8), Cc::SignedGreater, Imm(0));
    code.jmp_exec_any(again);
    code.pop_exec(1);
    code.icmp(Icmp::If, 1, Hi(4), Cc::Greater, UHi(12));
    code.pop_exec(1);
}

fn moves(code: &mut Code) {
    for r in 4..12 {
        code.mov16(Lo(r), 0x1234 + r);
        code.mov32(Reg(r + 8), 0x89AB_CDEF ^ r);
        code.get_sr(Reg(r + 16), r % 8);
        code.get_sr(Hi(r), (r + 3) % 8);
        code.scan(Scan::Bitrev, Reg(r + 24), Reg(r));
        code.scan(Scan::Popcount, Lo(r + 32), Reg(r + 24));
        code.scan(Scan::Ffs, Hi(r + 32), Reg(r + 16));
        code.bitop(Reg(r + 40), Reg(r + 24), U(r), AND);
    }
}

fn scans(code: &mut Code) {
    for r in 4..8 {
        code.scan(Scan::Bitrev, Reg(r), Reg(r + 40));
        code.scan(Scan::Popcount, Reg(r + 8), Reg(r));
        code.scan(Scan::Ffs, Reg(r + 16), Reg(r + 40));
        code.scan(Scan::Bitrev, Lo(r + 24), Hi(r + 40));
        code.scan(Scan::Popcount, Hi(r + 24), U(r));
        code.scan(Scan::Ffs, Lo(r + 32), Lo(r + 24));
    }
}

/// Jumps that are taken, jumps that are not, and pop_exec between them; the mask stays as it is.
fn pops(code: &mut Code) {
    for _ in 0..8 {
        code.pop_exec(1);
        let not_taken = code.jmp_exec_none();
        code.land(not_taken);
        code.pop_exec(0);
        let over = code.here() + 12;
        code.jmp_exec_any(over);
        code.pop_exec(3);
        code.pop_exec(2);
    }
}

/// Every register source discards; it was written since it was discarded last, so nothing is refused.
fn discards(code: &mut Code) {
    for r in 4..8 {
        let [first, second, third, fourth] = [r, r + 8, r + 16, r + 24].map(Reg);
        let [pair, other] = [2 * r + 40, 2 * r + 60].map(Pair);
        let drop = |op: Op| unsigned(op.discard());
        code.iadd(third, drop(first), drop(second), PLUS);
        code.imadd(pair, signed(Lo(r + 16).discard()), drop(Hi(r + 16)), drop(pair), shifted(1));
        code.mov32(first, 0x89AB_CDEF ^ r);
        code.iadd(other, drop(pair), drop(first), MINUS);
        code.field(Field::Bfi, second, [Reg(2 * r + 60).discard(), Reg(2 * r + 61).discard(), Imm(13)], 11);
        code.get_sr(first, r % 8);
        code.mov16(Lo(r + 24), 0x1234 + r);
        code.field(Field::Extr, fourth, [first.discard(), second.discard(), Lo(r + 24).discard()], 0);
        code.asr(Asr::Low, third, fourth.discard(), Imm(7));
        code.scan(Scan::Bitrev, third, third.discard());
        code.bitop(second, Lo(r + 16).discard(), Hi(r + 16).discard(), XOR);
        code.iadd(pair, drop(second), unsigned(U(r)), PLUS);
        code.get_sr(second, (r + 3) % 8);
        code.imadd(first, drop(Hi(r + 8)), unsigned(Imm(77)), drop(Lo(r + 8)), PLUS);
        code.mov32(second, 0x1234_5678 ^ r);
    }
}
