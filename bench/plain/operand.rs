//! Operands: what a joined number `v` and a flag field `t` name, and where they name nothing (refusal 4).

use std::ops::Range;

/// A register half is numbered 2r for the low half of register r and 2r + 1 for the high one; so is a uniform half.
#[derive(Clone, Copy, Debug, PartialEq, Eq)]
pub enum Source {
    Immediate(u8),
    Half(u8),
    Register(u8),
    Pair(u8),
    UniformHalf(u16),
    Uniform(u8),
    UniformPair(u8),
}

#[derive(Clone, Copy, Debug, PartialEq, Eq)]
pub enum Destination {
    Half(u8),
    Register(u8),
    Pair(u8),
}

#[derive(Clone, Copy, Debug, PartialEq, Eq)]
pub enum Hint {
    None,
    Cache,
    Discard,
}

/// A source with its hint; immediates and uniforms have none.
#[derive(Clone, Copy, Debug, PartialEq, Eq)]
pub struct Src {
    pub from: Source,
    pub hint: Hint,
}

/// A destination with its cache hint.
#[derive(Clone, Copy, Debug, PartialEq, Eq)]
pub struct Dst {
    pub to: Destination,
    pub cache: bool,
}

/// Whether an operand may be 64 bits wide: ALUDst64 and AddSrc may, ALUDst, ALUSrc and MulSrc may not.
#[derive(Clone, Copy, PartialEq, Eq)]
pub enum Widest {
    Bits32,
    Bits64,
}

impl Dst {
    /// ALUDst(v, t) or ALUDst64(v, t).
    #[inline(always)]
    pub fn read(v: u8, t: u8, widest: Widest) -> Option<Dst> {
        let to = match (t & 2 != 0, v.is_multiple_of(2)) {
            (false, _) => Destination::Half(v),
            (true, true) => Destination::Register(v / 2),
            (true, false) if widest == Widest::Bits64 => Destination::Pair(v / 2),
            (true, false) => return None,
        };
        Some(Dst { to, cache: t & 1 != 0 })
    }
}

impl Destination {
    pub fn bit_size(self) -> u32 {
        match self {
            Destination::Half(_) => 16,
            Destination::Register(_) => 32,
            Destination::Pair(_) => 64,
        }
    }

    /// The highest register that is written.
    #[inline(always)]
    pub fn last_register(self) -> u8 {
        match self {
            Destination::Half(half) => half / 2,
            Destination::Register(register) => register,
            Destination::Pair(first) => first + 1,
        }
    }

    /// The register halves that are written.
    #[inline(always)]
    pub fn halves(self) -> Range<usize> {
        match self {
            Destination::Half(half) => halves(half as usize, 1),
            Destination::Register(register) => halves(2 * register as usize, 2),
            Destination::Pair(first) => halves(2 * first as usize, 4),
        }
    }
}

#[inline(always)]
fn halves(first: usize, count: usize) -> Range<usize> {
    first..first + count
}

impl Src {
    /// ALUSrc(v, t), or its 64-bit kind, which is AddSrc's. A pair of uniforms may not run past u255.
    #[inline(always)]
    pub fn read(v: u8, t: u8, widest: Widest) -> Option<Src> {
        let even = v.is_multiple_of(2);
        let wide = widest == Widest::Bits64;
        // the number of a uniform's half, 0 to 511
        let u = v as u16 + 256 * (t as u16 & 1);
        let from = match t {
            0b0000 => Source::Immediate(v),
            0b0001..=0b0011 => Source::Half(v),
            0b0100 | 0b0101 => Source::UniformHalf(u),
            0b0110 | 0b0111 if even => Source::Uniform((u / 2) as u8),
            0b0110 | 0b0111 if wide && u < 511 => Source::UniformPair((u / 2) as u8),
            0b1001..=0b1011 if even => Source::Register(v / 2),
            0b1101..=0b1111 if even && wide => Source::Pair(v / 2),
            _ => return None,
        };
        Some(Src { from, hint: Hint::read(t) })
    }
}

impl Hint {
    /// The hint in the flag field of a source; immediates and uniforms carry none.
    #[inline(always)]
    fn read(t: u8) -> Hint {
        match t {
            0b0010 | 0b1010 | 0b1110 => Hint::Cache,
            0b0011 | 0b1011 | 0b1111 => Hint::Discard,
            _ => Hint::None,
        }
    }
}

impl Source {
    pub fn bit_size(self) -> u32 {
        match self {
            Source::Immediate(_) | Source::Half(_) | Source::UniformHalf(_) => 16,
            Source::Register(_) | Source::Uniform(_) => 32,
            Source::Pair(_) | Source::UniformPair(_) => 64,
        }
    }

    /// The highest register that is read; 0, which every machine has, where none is.
    #[inline(always)]
    pub fn last_register(self) -> u8 {
        match self {
            Source::Half(half) => half / 2,
            Source::Register(register) => register,
            Source::Pair(first) => first + 1,
            Source::Immediate(_) | Source::UniformHalf(_) | Source::Uniform(_) | Source::UniformPair(_) => 0,
        }
    }

    /// The register halves that are read; uniforms and immediates have none.
    #[inline(always)]
    pub fn halves(self) -> Range<usize> {
        match self {
            Source::Half(half) => halves(half as usize, 1),
            Source::Register(register) => halves(2 * register as usize, 2),
            Source::Pair(first) => halves(2 * first as usize, 4),
            Source::Immediate(_) | Source::UniformHalf(_) | Source::Uniform(_) | Source::UniformPair(_) => 0..0,
        }
    }
}
