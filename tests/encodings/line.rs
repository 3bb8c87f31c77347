//! A line of the encodings, read: its bytes, and the byte form that docs/byte-form.md gives to what its fields say. driver.txt says the
//! form of a line. What a line does not name is 0.

use crate::plain::form::{Fields, Operand};

/// Each instruction: its word in the lines, its kind in the byte form, and the fields of its lines, in their order after len and op.
#[rustfmt::skip]
pub const INSTRUCTIONS: [(&str, u8, &str); 19] = [
    ("mov16", 1, "d imm l"),
    ("mov32", 2, "d imm l"),
    ("get_sr", 3, "d sr"),
    ("iadd", 4, "d a b sat neg sxa sxb shift"),
    ("imad", 5, "d a b c sat neg sxa sxb sxc shift"),
    ("bfi", 6, "d a b c m"),
    ("bfeil", 7, "d a b c m"),
    ("extr", 8, "d a b c m"),
    ("asr", 11, "d a b"),
    ("bitop", 13, "d a b tt"),
    ("bitrev", 14, "d a"),
    ("popcount", 15, "d a"),
    ("ffs", 16, "d a"),
    ("jmp_exec_any", 17, "off"),
    ("jmp_exec_none", 18, "off"),
    ("pop_exec", 19, "nest"),
    ("if_icmp", 20, "a b cond inv nest"),
    ("while_icmp", 21, "a b cond inv nest"),
    ("else_icmp", 22, "a b cond inv nest"),
];

/// The comparisons by their number in the field cc; 3 is none.
const CONDITIONS: [&str; 7] = ["ueq", "ult", "ugt", "", "seq", "slt", "sgt"];
const HINTS: [&str; 3] = ["none", "cache", "discard"];

pub struct Asked {
    pub bytes: Vec<u8>,
    /// Its place in INSTRUCTIONS.
    pub instruction: usize,
    pub fields: Fields,
}

impl Asked {
    pub fn read(line: &str) -> Result<Asked, String> {
        let mut words = line.split(' ');
        let digits = words.next().unwrap_or_default();
        let bytes = bytes(digits).ok_or_else(|| format!("`{digits}` is no encoding"))?;
        let pairs: Vec<(&str, &str)> = words.map(|word| word.split_once('=').unwrap_or((word, ""))).collect();
        let op = pairs.get(1).map_or("", |(_, value)| *value);
        let instruction = INSTRUCTIONS.iter().position(|(word, ..)| *word == op).ok_or("it has no instruction")?;
        let (_, kind, names) = INSTRUCTIONS[instruction];
        if !pairs.iter().map(|(name, _)| *name).eq(["len", "op"].into_iter().chain(names.split(' '))) {
            return Err(format!("its fields are not len op {names}"));
        }
        let mut fields = Fields { kind, ..Fields::default() };
        for (name, value) in pairs {
            set(&mut fields, name, value).ok_or_else(|| format!("`{name}` can't be `{value}`"))?;
        }
        Ok(Asked { bytes, instruction, fields })
    }
}

/// Puts the value of a field where the byte form has it.
fn set(fields: &mut Fields, name: &str, value: &str) -> Option<()> {
    match name {
        "op" => {}
        "len" => fields.length = number(value)?,
        "d" => fields.d = operand(value)?,
        "a" => fields.sources[0] = operand(value)?,
        "b" => fields.sources[1] = operand(value)?,
        "c" => fields.sources[2] = operand(value)?,
        "imm" | "sr" => fields.immediate = number(value)?,
        "off" => fields.immediate = number::<i32>(value)? as u32,
        "l" => fields.l = number(value)?,
        "sat" => fields.saturate = number(value)?,
        "neg" => fields.negate = number(value)?,
        "sxa" => fields.signs[0] = number(value)?,
        "sxb" => fields.signs[1] = number(value)?,
        "sxc" => fields.signs[2] = number(value)?,
        "shift" => fields.shift = number(value)?,
        "m" => fields.m = number(value)?,
        "tt" => {
            let table = number::<u8>(value).filter(|table| *table < 16)?;
            fields.tt = [0, 1, 2, 3].map(|k| table >> k & 1);
        }
        "cond" => fields.cc = place(&CONDITIONS, value)?,
        "inv" => fields.ccn = number(value)?,
        "nest" => fields.n = number(value)?,
        _ => return None,
    }
    Some(())
}

/// An operand. Halves are counted in the lines at every width, in the byte form at 16 bits alone.
fn operand(value: &str) -> Option<Operand> {
    let parts: Vec<&str> = value.split(':').collect();
    let (what, at) = (*parts.first()?, number::<u16>(parts.get(1)?)?);
    let hint = match (what, parts.len()) {
        ("reg16" | "reg32" | "reg64", 3) => place(&HINTS, parts[2])?,
        ("uni16" | "uni32" | "imm", 2) => 0,
        _ => return None,
    };
    let whole = |kind: u8| (at % 2 == 0).then_some((kind, at / 2));
    let (kind, number) = match what {
        "reg16" => (1, at),
        "reg32" => whole(2)?,
        "reg64" => whole(3)?,
        "uni16" => (4, at),
        "uni32" => whole(5)?,
        _ => (7, at),
    };
    Some(Operand { kind, hint, number })
}

/// A decimal number as it is printed: no sign but a minus, no zero before it.
fn number<T: std::str::FromStr + ToString>(value: &str) -> Option<T> {
    value.parse().ok().filter(|number: &T| number.to_string() == value)
}

fn place(names: &[&str], value: &str) -> Option<u8> {
    names.iter().position(|name| !name.is_empty() && *name == value).map(|at| at as u8)
}

/// The bytes that pairs of small hexadecimal digits say, one to eight of them.
fn bytes(digits: &str) -> Option<Vec<u8>> {
    let right = digits.bytes().all(|digit| matches!(digit, b'0'..=b'9' | b'a'..=b'f'));
    (right && matches!(digits.len(), 2 | 4 | 6 | 8 | 10 | 12 | 14 | 16))
        .then(|| (0..digits.len() / 2).filter_map(|k| u8::from_str_radix(&digits[2 * k..2 * k + 2], 16).ok()).collect())
}
