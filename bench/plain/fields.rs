//! The byte form's fields of a decoded instruction.

use super::decode::{Bitfield, Compare, Condition, Iadd, Imadd, Instruction, Kind, Term, Test};
use super::find::Name;
use super::form::{Fields, Operand};
use super::operand::{Destination, Dst, Hint, Source, Src};

impl Fields {
    pub fn of(instruction: &Instruction) -> Fields {
        let long = instruction.length;
        let (name, fields) = match instruction.kind {
            Kind::Mov16 { d, imm } => (Name::Mov16, mov(d, imm as u32, long == 6)),
            Kind::Mov32 { d, imm } => (Name::Mov32, mov(d, imm, long == 8)),
            Kind::GetSr { d, sr } => (Name::GetSr, Fields { immediate: sr as u32, ..operands(d, &[]) }),
            Kind::Iadd(i) => (Name::Iadd, iadd(i)),
            Kind::Imadd(i) => (Name::Imadd, imadd(i)),
            Kind::Bfi(i) => (Name::Bfi, bitfield(i)),
            Kind::Bfeil(i) => (Name::Bfeil, bitfield(i)),
            Kind::Extr(i) => (Name::Extr, bitfield(i)),
            Kind::Shlhi(i) => (Name::Shlhi, bitfield(i)),
            Kind::Shrhi(i) => (Name::Shrhi, bitfield(i)),
            Kind::Asr { d, a, b } => (Name::Asr, operands(d, &[a, b])),
            Kind::Asrh { d, a, b } => (Name::Asrh, operands(d, &[a, b])),
            Kind::Bitop { d, a, b, tt } => (Name::Bitop, Fields { tt: tt.map(u8::from), ..operands(d, &[a, b]) }),
            Kind::Bitrev { d, a } => (Name::Bitrev, operands(d, &[a])),
            Kind::Popcount { d, a } => (Name::Popcount, operands(d, &[a])),
            Kind::Ffs { d, a } => (Name::Ffs, operands(d, &[a])),
            Kind::JmpExecAny { off } => (Name::JmpExecAny, Fields { immediate: off as u32, ..Fields::default() }),
            Kind::JmpExecNone { off } => (Name::JmpExecNone, Fields { immediate: off as u32, ..Fields::default() }),
            Kind::PopExec { cache, n } => (Name::PopExec, Fields { n, ..on_r0l(cache, &[]) }),
            Kind::IfIcmp(i) => (Name::IfIcmp, compare(i)),
            Kind::WhileIcmp(i) => (Name::WhileIcmp, compare(i)),
            Kind::ElseIcmp(i) => (Name::ElseIcmp, compare(i)),
        };
        Fields { kind: name.kind(), length: instruction.length as u8, kept: instruction.kept, ..fields }
    }
}

fn operands(d: Dst, sources: &[Src]) -> Fields {
    let (kind, number) = match d.to {
        Destination::Half(half) => (1, half),
        Destination::Register(register) => (2, register),
        Destination::Pair(first) => (3, first),
    };
    let d = Operand { kind, number: number as u16, hint: d.cache as u8 };
    Fields { d, sources: three(sources), ..Fields::default() }
}

/// A mask instruction's: the hint of r0l, without a kind or a number.
fn on_r0l(cache: bool, sources: &[Src]) -> Fields {
    let d = Operand { hint: cache as u8, ..Operand::default() };
    Fields { d, sources: three(sources), ..Fields::default() }
}

fn three(sources: &[Src]) -> [Operand; 3] {
    let mut all = [Operand::default(); 3];
    for (operand, source) in all.iter_mut().zip(sources) {
        *operand = source_operand(*source);
    }
    all
}

fn source_operand(source: Src) -> Operand {
    let (kind, number) = match source.from {
        Source::Half(half) => (1, half as u16),
        Source::Register(register) => (2, register as u16),
        Source::Pair(first) => (3, first as u16),
        Source::UniformHalf(half) => (4, half),
        Source::Uniform(uniform) => (5, uniform as u16),
        Source::UniformPair(first) => (6, first as u16),
        Source::Immediate(value) => (7, value as u16),
    };
    let hint = match source.hint {
        Hint::None => 0,
        Hint::Cache => 1,
        Hint::Discard => 2,
    };
    Operand { kind, hint, number }
}

fn mov(d: Dst, immediate: u32, long: bool) -> Fields {
    Fields { l: long as u8, immediate, ..operands(d, &[]) }
}

fn signs(terms: &[Term]) -> [u8; 3] {
    let mut signs = [0; 3];
    for (sign, term) in signs.iter_mut().zip(terms) {
        *sign = term.signed as u8;
    }
    signs
}

fn iadd(i: Iadd) -> Fields {
    Fields {
        saturate: i.saturate as u8,
        negate: i.negate as u8,
        signs: signs(&[i.a, i.b]),
        shift: i.shift,
        ..operands(i.d, &[i.a.src, i.b.src])
    }
}

fn imadd(i: Imadd) -> Fields {
    Fields {
        saturate: i.saturate as u8,
        negate: i.negate as u8,
        signs: signs(&[i.a, i.b, i.c]),
        shift: i.shift,
        ..operands(i.d, &[i.a.src, i.b.src, i.c.src])
    }
}

fn bitfield(i: Bitfield) -> Fields {
    Fields { m: i.m, ..operands(i.d, &[i.a, i.b, i.c]) }
}

fn compare(i: Compare) -> Fields {
    Fields { cc: cc(i.condition), ccn: i.condition.negated as u8, n: i.n, ..on_r0l(i.cache, &[i.a, i.b]) }
}

fn cc(condition: Condition) -> u8 {
    let test = match condition.test {
        Test::Equal => 0,
        Test::Less => 1,
        Test::Greater => 2,
    };
    test | (condition.signed as u8) << 2
}
