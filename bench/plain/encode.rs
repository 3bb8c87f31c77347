//! Encoding: the word of a spelled instruction, field by field, or none for one of 01's reasons for refusal 8. It is written from
//! the diagrams and asks the decoder nothing.

use super::find::{find, Form, Name};
use super::form::{spelled, Fields, Operand};
use super::operand::Widest;

/// The word of an encoding and its length in bytes.
pub fn encode(form: &[u8]) -> Option<(u64, usize)> {
    let (fields, diagram) = spelled(form)?;
    let kept = kept(&fields, diagram)?;
    let word = placed(&fields, diagram.name)? | diagram.value | kept;
    present(word, diagram.length)?;
    found(word, diagram)?;
    Some((word, diagram.length))
}

/// The kept bits, none of which stands where the diagram has no "?".
fn kept(fields: &Fields, diagram: &Form) -> Option<u64> {
    (fields.kept & !diagram.unknown == 0).then_some(fields.kept)
}

/// No bit of the word is in the bytes that are absent.
fn present(word: u64, length: usize) -> Option<()> {
    (length == 8 || word >> (8 * length) == 0).then_some(())
}

/// The finding rule, given the bytes alone, gives them to this instruction.
fn found(word: u64, diagram: &Form) -> Option<()> {
    let form = find(word, diagram.length).ok()?;
    (form.name == diagram.name && form.length == diagram.length).then_some(())
}

/// Operands and numbers of an instruction at their bits.
fn placed(f: &Fields, name: Name) -> Option<u64> {
    Some(match name {
        Name::Mov16 => field(f.l, 15, 15)? | field(f.immediate, 31, 16)? | only(f.d, 1, 44)?,
        Name::Mov32 => field(f.l, 15, 15)? | field(f.immediate, 47, 16)? | only(f.d, 2, 60)?,
        Name::GetSr => dst(f.d, 28, Widest::Bits32)? | joined(f.immediate, 26, 16)?,
        Name::Iadd => dst(f.d, 44, Widest::Bits64)? | sum(f)? | iadd_sources(f)?,
        Name::Imadd => dst(f.d, 60, Widest::Bits64)? | sum(f)? | imadd_sources(f)?,
        Name::Bfi | Name::Bfeil | Name::Extr | Name::Shlhi | Name::Shrhi => bitfield(f)?,
        Name::Asr | Name::Asrh => dst(f.d, 60, Widest::Bits32)? | a(f, 58)? | b(f, 56)?,
        Name::Bitop => dst(f.d, 44, Widest::Bits32)? | a(f, 42)? | b(f, 40)? | truth(f)?,
        Name::Bitrev | Name::Popcount | Name::Ffs => dst(f.d, 44, Widest::Bits32)? | a(f, 42)?,
        Name::JmpExecAny | Name::JmpExecNone => field(f.immediate, 47, 16)?,
        Name::PopExec => r0l(f)?,
        Name::IfIcmp | Name::WhileIcmp | Name::ElseIcmp => r0l(f)? | condition(f)? | a(f, 42)? | b(f, 40)?,
    })
}

/// S, N and s2:s1.
fn sum(f: &Fields) -> Option<u64> {
    let shift = in_width(f.shift, 3)?;
    Some(field(f.saturate, 6, 6)? | field(f.negate, 27, 27)? | (shift >> 1) << 52 | (shift & 1) << 39)
}

fn iadd_sources(f: &Fields) -> Option<u64> {
    let a = src(f.sources[0], [42, 16, 22], Widest::Bits64)? | field(f.signs[0], 26, 26)?;
    let b = src(f.sources[1], [40, 28, 34], Widest::Bits64)? | field(f.signs[1], 38, 38)?;
    Some(a | b)
}

fn imadd_sources(f: &Fields) -> Option<u64> {
    let c = src(f.sources[2], [54, 40, 46], Widest::Bits64)?;
    let signs = field(f.signs[0], 26, 26)? | field(f.signs[1], 38, 38)? | field(f.signs[2], 50, 50)?;
    Some(a(f, 58)? | b(f, 56)? | c | signs)
}

fn bitfield(f: &Fields) -> Option<u64> {
    let c = src(f.sources[2], [54, 40, 46], Widest::Bits32)?;
    // m3:m2:m1
    let m = in_width(f.m, 5)?;
    let m = (m >> 4) << 63 | (m >> 2 & 3) << 50 | (m & 3) << 38;
    Some(dst(f.d, 60, Widest::Bits32)? | a(f, 58)? | b(f, 56)? | c | m)
}

fn truth(f: &Fields) -> Option<u64> {
    let [tt0, tt1, tt2, tt3] = f.tt;
    Some(field(tt0, 26, 26)? | field(tt1, 27, 27)? | field(tt2, 38, 38)? | field(tt3, 39, 39)?)
}

/// Dt, which is a cache hint here, and n.
fn r0l(f: &Fields) -> Option<u64> {
    Some(field(f.d.hint, 7, 7)? | field(f.n, 12, 11)?)
}

/// cc and ccn. Of the eight conditions, 011 and 111 have no meaning.
fn condition(f: &Fields) -> Option<u64> {
    let cc = field(f.cc, 15, 13)?;
    if f.cc & 3 == 3 {
        return None;
    }
    Some(cc | field(f.ccn, 8, 8)?)
}

/// The destination of a mov, whose size is a fixed bit: it takes one kind alone.
fn only(d: Operand, kind: u8, x: u32) -> Option<u64> {
    if d.kind == kind {
        dst(d, x, Widest::Bits32)
    } else {
        None
    }
}

/// Dx:D and Dt; Dx begins at bit `x`. A destination has no discard hint.
fn dst(d: Operand, x: u32, widest: Widest) -> Option<u64> {
    let number = d.number as u32;
    let (v, size) = match d.kind {
        1 => (number, 0),
        2 => (2 * number, 1),
        3 if widest == Widest::Bits64 => (2 * number + 1, 1),
        _ => return None,
    };
    Some(joined(v, x, 9)? | field(d.hint, 7, 7)? | size << 8)
}

fn a(f: &Fields, x: u32) -> Option<u64> {
    src(f.sources[0], [x, 16, 22], Widest::Bits32)
}

fn b(f: &Fields, x: u32) -> Option<u64> {
    src(f.sources[1], [x, 28, 34], Widest::Bits32)
}

/// A source at its two bits `x`, its six bits and its four flag bits.
fn src(source: Operand, [x, v, t]: [u32; 3], widest: Widest) -> Option<u64> {
    let (number, flags) = number_and_flags(source, widest == Widest::Bits64)?;
    Some(joined(number, x, v)? | field(flags, t + 3, t)?)
}

/// The joined number and the flag field that name a source, by the table of operands; none where nothing names it.
fn number_and_flags(source: Operand, wide: bool) -> Option<(u32, u32)> {
    let number = source.number as u32;
    let hint = source.hint as u32 + 1;
    let register = |v: u32, size: u32| (hint <= 3).then_some((v, size << 2 | hint));
    // `u` is the number of a uniform's half, 0 to 511
    let uniform =
        |u: u32, whole: u32| (u < 512 && source.hint == 0).then_some((u & 0xFF, 0b0100 | whole << 1 | u >> 8));
    match source.kind {
        1 => register(number, 0b00),
        2 => register(2 * number, 0b10),
        3 if wide => register(2 * number, 0b11),
        4 => uniform(number, 0),
        5 => uniform(2 * number, 1),
        // a pair may not run past u255
        6 if wide && number < 255 => uniform(2 * number + 1, 1),
        7 if source.hint == 0 => Some((number, 0b0000)),
        _ => None,
    }
}

/// The upper two bits of an eight-bit number at `x`, its lower six at `v`.
fn joined(number: u32, x: u32, v: u32) -> Option<u64> {
    let number = in_width(number, 8)?;
    Some((number >> 6) << x | (number & 0x3F) << v)
}

/// A number in the bits from `high` down to `low`, if it is not too wide for them.
fn field(number: impl Into<u64>, high: u32, low: u32) -> Option<u64> {
    Some(in_width(number, high - low + 1)? << low)
}

fn in_width(number: impl Into<u64>, width: u32) -> Option<u64> {
    let number = number.into();
    (number >> width == 0).then_some(number)
}
