//! A small assembler: instruction bytes from fields, by the diagrams of document 002.

/// An operand as a kernel's text names it. Registers and uniforms have their own numbers here, halves are named by them.
#[derive(Clone, Copy, Debug, PartialEq, Eq)]
pub enum Op {
    Imm(u64),
    Lo(u64),
    Hi(u64),
    Reg(u64),
    Pair(u64),
    ULo(u64),
    UHi(u64),
    U(u64),
    UPair(u64),
    DiscardLo(u64),
    DiscardHi(u64),
    DiscardReg(u64),
    DiscardPair(u64),
}
use Op::*;

impl Op {
    /// The same register, half or pair as a source with the discard hint.
    pub fn discard(self) -> Op {
        match self {
            Lo(r) => DiscardLo(r),
            Hi(r) => DiscardHi(r),
            Reg(r) => DiscardReg(r),
            Pair(r) => DiscardPair(r),
            _ => panic!("nothing to discard"),
        }
    }

    /// The joined number and the flag field of a source.
    fn source(self) -> (u64, u64) {
        let uniform = |half: u64, whole: u64| (half % 256, 0b0100 | whole << 1 | half >> 8);
        match self {
            Imm(value) => (value, 0b0000),
            Lo(r) => (2 * r, 0b0001),
            Hi(r) => (2 * r + 1, 0b0001),
            Reg(r) => (2 * r, 0b1001),
            Pair(r) => (2 * r, 0b1101),
            ULo(u) => uniform(2 * u, 0),
            UHi(u) => uniform(2 * u + 1, 0),
            U(u) => uniform(2 * u, 1),
            UPair(u) => uniform(2 * u + 1, 1),
            DiscardLo(r) => (2 * r, 0b0011),
            DiscardHi(r) => (2 * r + 1, 0b0011),
            DiscardReg(r) => (2 * r, 0b1011),
            DiscardPair(r) => (2 * r, 0b1111),
        }
    }

    /// The joined number and the flag field of a destination, without the cache hint.
    fn destination(self) -> (u64, u64) {
        match self {
            Lo(r) => (2 * r, 0b00),
            Hi(r) => (2 * r + 1, 0b00),
            Reg(r) => (2 * r, 0b10),
            Pair(r) => (2 * r + 1, 0b10),
            _ => panic!("not a destination"),
        }
    }
}

/// A source with its bit As, Bs or Cs.
#[derive(Clone, Copy)]
pub struct Term(pub Op, pub bool);

/// The flags of iadd and imadd: saturate, negate, and shift = s2:s1.
#[derive(Clone, Copy, Default)]
pub struct Sum {
    pub saturate: bool,
    pub negate: bool,
    pub shift: u64,
}

/// bfi, bfeil, extr, shlhi and shrhi: bit 15, and bits 27..26.
#[derive(Clone, Copy)]
pub enum Field {
    Bfi = 0b000,
    Bfeil = 0b100,
    Extr = 0b001,
    Shlhi = 0b010,
    Shrhi = 0b110,
}

/// asr and asrh: bit 27.
#[derive(Clone, Copy)]
pub enum Asr {
    Low = 0,
    High = 1,
}

/// bitrev, popcount and ffs: bits 27..26.
#[derive(Clone, Copy)]
pub enum Scan {
    Bitrev = 1,
    Popcount = 2,
    Ffs = 3,
}

/// if_icmp, else_icmp and while_icmp: bits 10..9.
#[derive(Clone, Copy)]
pub enum Icmp {
    If = 0,
    Else = 1,
    While = 2,
}

/// A condition's cc.
#[derive(Clone, Copy)]
pub enum Cc {
    Equal = 0b000,
    Less = 0b001,
    Greater = 0b010,
    SignedGreater = 0b110,
}

/// The bytes of a kernel so far.
#[derive(Default)]
pub struct Code(pub Vec<u8>);

impl Code {
    pub fn here(&self) -> usize {
        self.0.len()
    }

    pub fn mov16(&mut self, d: Op, imm: u64) {
        let word = dst(d, 44) | imm << 16 | 1 << 15 | 0b1100010;
        self.put(word, 6);
    }

    pub fn mov32(&mut self, d: Op, imm: u64) {
        self.put(dst(d, 60) | imm << 16 | 1 << 15 | 0b1100010, 8);
    }

    pub fn get_sr(&mut self, d: Op, sr: u64) {
        self.put(dst(d, 28) | joined(sr, 26, 16) | 0b1110010, 4);
    }

    pub fn iadd(&mut self, d: Op, a: Term, b: Term, sum: Sum) {
        let word = dst(d, 44) | term(a, [42, 16, 22, 26]) | term(b, [40, 28, 34, 38]);
        self.put(word | flags(sum) | 0b001110, 8);
    }

    pub fn imadd(&mut self, d: Op, a: Term, b: Term, c: Term, sum: Sum) {
        let sources = term(a, [58, 16, 22, 26]) | term(b, [56, 28, 34, 38]) | term(c, [54, 40, 46, 50]);
        self.put(dst(d, 60) | sources | flags(sum) | 0b011110, 8);
    }

    pub fn field(&mut self, which: Field, d: Op, [a, b, c]: [Op; 3], m: u64) {
        let sources = src(a, [58, 16, 22]) | src(b, [56, 28, 34]) | src(c, [54, 40, 46]);
        let m = (m >> 4) << 63 | (m >> 2 & 3) << 50 | (m & 3) << 38;
        let which = which as u64;
        self.put(dst(d, 60) | sources | m | (which >> 2) << 15 | (which & 3) << 26 | 0b0101110, 8);
    }

    pub fn asr(&mut self, which: Asr, d: Op, a: Op, b: Op) {
        let word = dst(d, 60) | src(a, [58, 16, 22]) | src(b, [56, 28, 34]);
        self.put(word | (which as u64) << 27 | 1 << 26 | 1 << 15 | 0b0101110, 8);
    }

    /// `tt` has tt0 in bit 0 and tt3 in bit 3.
    pub fn bitop(&mut self, d: Op, a: Op, b: Op, tt: u64) {
        let word = dst(d, 44) | src(a, [42, 16, 22]) | src(b, [40, 28, 34]);
        self.put(word | (tt & 3) << 26 | (tt >> 2) << 38 | 0b1111110, 6);
    }

    pub fn scan(&mut self, which: Scan, d: Op, a: Op) {
        self.put(dst(d, 44) | src(a, [42, 16, 22]) | (which as u64) << 26 | 0b0111110, 6);
    }

    pub fn jmp_exec_any(&mut self, to: usize) {
        self.jump(to, 0b11000000_00000000);
    }

    /// A jump whose place to go is not known yet: `land` gives it.
    pub fn jmp_exec_none(&mut self) -> usize {
        let at = self.here();
        self.jump(at, 0b11000000_00100000);
        at
    }

    /// The jump at `jump` goes to where the next instruction will stand.
    pub fn land(&mut self, jump: usize) {
        let off = self.here() as i32 - jump as i32;
        self.0[jump + 2..jump + 6].copy_from_slice(&off.to_le_bytes());
    }

    pub fn pop_exec(&mut self, n: u64) {
        self.put(n << 11 | 0b11 << 9 | 0b1010010, 6);
    }

    pub fn icmp(&mut self, which: Icmp, n: u64, a: Op, cc: Cc, b: Op) {
        let word = src(a, [42, 16, 22]) | src(b, [40, 28, 34]) | (cc as u64) << 13 | n << 11;
        self.put(word | (which as u64) << 9 | 0b1010010, 6);
    }

    fn jump(&mut self, to: usize, opcode: u64) {
        let off = to as i32 - self.here() as i32;
        self.put((off as u32 as u64) << 16 | opcode, 6);
    }

    fn put(&mut self, word: u64, length: usize) {
        self.0.extend_from_slice(&word.to_le_bytes()[..length]);
    }
}

/// Two bits at `x` and six at `v` of an eight-bit number.
fn joined(number: u64, x: u32, v: u32) -> u64 {
    assert!(number < 256);
    (number >> 6) << x | (number & 63) << v
}

fn dst(d: Op, x: u32) -> u64 {
    let (number, t) = d.destination();
    joined(number, x, 9) | t << 7
}

fn src(s: Op, [x, v, t]: [u32; 3]) -> u64 {
    let (number, flags) = s.source();
    joined(number, x, v) | flags << t
}

fn term(Term(s, signed): Term, [x, v, t, sign]: [u32; 4]) -> u64 {
    src(s, [x, v, t]) | (signed as u64) << sign
}

fn flags(sum: Sum) -> u64 {
    (sum.shift >> 1) << 52 | (sum.shift & 1) << 39 | (sum.negate as u64) << 27 | (sum.saturate as u64) << 6
}
