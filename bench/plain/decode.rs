//! Decoding: the instruction that the bytes at an address spell, with every field and every kept bit, or refusal 2, 3 or 4.
//!
//! A run uses neither hints nor kept bits; they are here so that the instruction can be encoded again.

use super::find::{find, Name};
use super::operand::{Dst, Src, Widest};
use super::Refusal;

/// A decoded instruction. `kept` has the bits without a known meaning, at their places; a mov's L follows from `length`.
#[derive(Clone, Copy, Debug, PartialEq, Eq)]
pub struct Instruction {
    pub length: usize,
    pub kept: u64,
    pub kind: Kind,
}

#[derive(Clone, Copy, Debug, PartialEq, Eq)]
pub enum Kind {
    Mov16 { d: Dst, imm: u16 },
    Mov32 { d: Dst, imm: u32 },
    GetSr { d: Dst, sr: u8 },
    Iadd(Iadd),
    Imadd(Imadd),
    Bfi(Bitfield),
    Bfeil(Bitfield),
    Extr(Bitfield),
    Shlhi(Bitfield),
    Shrhi(Bitfield),
    Asr { d: Dst, a: Src, b: Src },
    Asrh { d: Dst, a: Src, b: Src },
    Bitop { d: Dst, a: Src, b: Src, tt: [bool; 4] },
    Bitrev { d: Dst, a: Src },
    Popcount { d: Dst, a: Src },
    Ffs { d: Dst, a: Src },
    JmpExecAny { off: i32 },
    JmpExecNone { off: i32 },
    PopExec { cache: bool, n: u8 },
    IfIcmp(Compare),
    WhileIcmp(Compare),
    ElseIcmp(Compare),
}

/// A source of iadd or imadd and its bit `As`, `Bs` or `Cs`.
#[derive(Clone, Copy, Debug, PartialEq, Eq)]
pub struct Term {
    pub src: Src,
    pub signed: bool,
}

#[derive(Clone, Copy, Debug, PartialEq, Eq)]
pub struct Iadd {
    pub d: Dst,
    pub a: Term,
    pub b: Term,
    pub saturate: bool,
    pub negate: bool,
    pub shift: u8,
}

#[derive(Clone, Copy, Debug, PartialEq, Eq)]
pub struct Imadd {
    pub d: Dst,
    pub a: Term,
    pub b: Term,
    pub c: Term,
    pub saturate: bool,
    pub negate: bool,
    pub shift: u8,
}

#[derive(Clone, Copy, Debug, PartialEq, Eq)]
pub struct Bitfield {
    pub d: Dst,
    pub a: Src,
    pub b: Src,
    pub c: Src,
    pub m: u8,
}

#[derive(Clone, Copy, Debug, PartialEq, Eq)]
pub struct Compare {
    pub cache: bool,
    pub condition: Condition,
    pub n: u8,
    pub a: Src,
    pub b: Src,
}

/// ICondition: the test, whether the values are sign-extended before it, and whether its answer is turned round.
#[derive(Clone, Copy, Debug, PartialEq, Eq)]
pub struct Condition {
    pub test: Test,
    pub signed: bool,
    pub negated: bool,
}

#[derive(Clone, Copy, Debug, PartialEq, Eq)]
pub enum Test {
    Equal,
    Less,
    Greater,
}

/// Decodes the instruction at the start of `code`.
#[inline(always)]
pub fn decode(code: &[u8]) -> Result<Instruction, Refusal> {
    let word = match code.first_chunk() {
        Some(bytes) => u64::from_le_bytes(*bytes),
        None => padded(code),
    };
    let form = find(word, code.len().min(8))?;
    // the bytes after the instruction, and the absent ones of a short form, read as zero
    let word = word & (u64::MAX >> (64 - 8 * form.length));
    let kind = Word(word).kind(form.name).ok_or(4)?;
    Ok(Instruction { length: form.length, kept: word & form.unknown, kind })
}

fn padded(code: &[u8]) -> u64 {
    let mut bytes = [0; 8];
    bytes[..code.len()].copy_from_slice(code);
    u64::from_le_bytes(bytes)
}

/// An instruction's bits, of which the diagrams name parts.
#[derive(Clone, Copy)]
struct Word(u64);

impl Word {
    #[inline(always)]
    fn kind(self, name: Name) -> Option<Kind> {
        Some(match name {
            Name::Mov16 => Kind::Mov16 { d: self.dst(44, Widest::Bits32)?, imm: self.field(31, 16) as u16 },
            Name::Mov32 => Kind::Mov32 { d: self.dst(60, Widest::Bits32)?, imm: self.field(47, 16) as u32 },
            Name::GetSr => Kind::GetSr { d: self.dst(28, Widest::Bits32)?, sr: self.joined(26, 16) },
            Name::Iadd => Kind::Iadd(self.iadd()?),
            Name::Imadd => Kind::Imadd(self.imadd()?),
            Name::Bfi => Kind::Bfi(self.bitfield()?),
            Name::Bfeil => Kind::Bfeil(self.bitfield()?),
            Name::Extr => Kind::Extr(self.bitfield()?),
            Name::Shlhi => Kind::Shlhi(self.bitfield()?),
            Name::Shrhi => Kind::Shrhi(self.bitfield()?),
            Name::Asr => Kind::Asr { d: self.dst(60, Widest::Bits32)?, a: self.a(58)?, b: self.b(56)? },
            Name::Asrh => Kind::Asrh { d: self.dst(60, Widest::Bits32)?, a: self.a(58)?, b: self.b(56)? },
            Name::Bitop => {
                let tt = [self.bit(26), self.bit(27), self.bit(38), self.bit(39)];
                Kind::Bitop { d: self.dst(44, Widest::Bits32)?, a: self.a(42)?, b: self.b(40)?, tt }
            }
            Name::Bitrev => Kind::Bitrev { d: self.dst(44, Widest::Bits32)?, a: self.a(42)? },
            Name::Popcount => Kind::Popcount { d: self.dst(44, Widest::Bits32)?, a: self.a(42)? },
            Name::Ffs => Kind::Ffs { d: self.dst(44, Widest::Bits32)?, a: self.a(42)? },
            Name::JmpExecAny => Kind::JmpExecAny { off: self.field(47, 16) as i32 },
            Name::JmpExecNone => Kind::JmpExecNone { off: self.field(47, 16) as i32 },
            Name::PopExec => Kind::PopExec { cache: self.bit(7), n: self.field(12, 11) as u8 },
            Name::IfIcmp => Kind::IfIcmp(self.compare()?),
            Name::WhileIcmp => Kind::WhileIcmp(self.compare()?),
            Name::ElseIcmp => Kind::ElseIcmp(self.compare()?),
        })
    }

    #[inline(always)]
    fn iadd(self) -> Option<Iadd> {
        Some(Iadd {
            d: self.dst(44, Widest::Bits64)?,
            a: self.term([42, 16, 22, 26], Widest::Bits64)?,
            b: self.term([40, 28, 34, 38], Widest::Bits64)?,
            saturate: self.bit(6),
            negate: self.bit(27),
            shift: self.shift(),
        })
    }

    #[inline(always)]
    fn imadd(self) -> Option<Imadd> {
        Some(Imadd {
            d: self.dst(60, Widest::Bits64)?,
            a: self.term([58, 16, 22, 26], Widest::Bits32)?,
            b: self.term([56, 28, 34, 38], Widest::Bits32)?,
            c: self.term([54, 40, 46, 50], Widest::Bits64)?,
            saturate: self.bit(6),
            negate: self.bit(27),
            shift: self.shift(),
        })
    }

    #[inline(always)]
    fn bitfield(self) -> Option<Bitfield> {
        Some(Bitfield {
            d: self.dst(60, Widest::Bits32)?,
            a: self.a(58)?,
            b: self.b(56)?,
            c: self.src([54, 40, 46], Widest::Bits32)?,
            // m3:m2:m1
            m: (self.field(63, 63) << 4 | self.field(51, 50) << 2 | self.field(39, 38)) as u8,
        })
    }

    #[inline(always)]
    fn compare(self) -> Option<Compare> {
        let test = match self.field(14, 13) {
            0 => Test::Equal,
            1 => Test::Less,
            2 => Test::Greater,
            _ => return None,
        };
        let condition = Condition { test, signed: self.bit(15), negated: self.bit(8) };
        Some(Compare { cache: self.bit(7), condition, n: self.field(12, 11) as u8, a: self.a(42)?, b: self.b(40)? })
    }

    /// s2:s1 of iadd and imadd.
    #[inline(always)]
    fn shift(self) -> u8 {
        (self.field(53, 52) << 1 | self.field(39, 39)) as u8
    }

    /// Dx:D and Dt; Dx begins at bit `x`.
    #[inline(always)]
    fn dst(self, x: u32, widest: Widest) -> Option<Dst> {
        Dst::read(self.joined(x, 9), self.field(8, 7) as u8, widest)
    }

    /// Ax:A and At, for ALUSrc; Ax begins at bit `x`.
    #[inline(always)]
    fn a(self, x: u32) -> Option<Src> {
        self.src([x, 16, 22], Widest::Bits32)
    }

    /// Bx:B and Bt, for ALUSrc; Bx begins at bit `x`.
    #[inline(always)]
    fn b(self, x: u32) -> Option<Src> {
        self.src([x, 28, 34], Widest::Bits32)
    }

    /// A source from the first bits of its two bits `x`, its six bits and its four flag bits.
    #[inline(always)]
    fn src(self, [x, v, t]: [u32; 3], widest: Widest) -> Option<Src> {
        Src::read(self.joined(x, v), self.field(t + 3, t) as u8, widest)
    }

    #[inline(always)]
    fn term(self, [x, v, t, s]: [u32; 4], widest: Widest) -> Option<Term> {
        Some(Term { src: self.src([x, v, t], widest)?, signed: self.bit(s) })
    }

    /// Two bits at `x` joined before six bits at `v`.
    #[inline(always)]
    fn joined(self, x: u32, v: u32) -> u8 {
        (self.field(x + 1, x) << 6 | self.field(v + 5, v)) as u8
    }

    #[inline(always)]
    fn bit(self, at: u32) -> bool {
        self.0 >> at & 1 == 1
    }

    /// The bits from `high` down to `low`, as a number.
    #[inline(always)]
    fn field(self, high: u32, low: u32) -> u64 {
        self.0 >> low & (u64::MAX >> (63 - (high - low)))
    }
}
