//! Random instructions: as fields of the byte form that have an encoding, and as bytes, good and bad.

use crate::plain::decode::decode;
use crate::plain::encode::encode;
use crate::plain::find::{Form, Name, FORMS};
use crate::plain::form::{has_destination, sources, Fields, Operand};
use crate::random::Random;

/// What an instruction may name: registers and special registers below these. One register source in so many discards, none where this
/// is 0.
#[derive(Clone, Copy)]
pub struct Limits {
    pub registers: usize,
    pub specials: usize,
    pub discards: usize,
}

/// The heading words, in the order of the kinds of the byte form.
pub const WORDS: [&str; 22] = [
    "mov16",
    "mov32",
    "get_sr",
    "iadd",
    "imadd",
    "bfi",
    "bfeil",
    "extr",
    "shlhi",
    "shrhi",
    "asr",
    "asrh",
    "bitop",
    "bitrev",
    "popcount",
    "ffs",
    "jmp_exec_any",
    "jmp_exec_none",
    "pop_exec",
    "if_icmp",
    "while_icmp",
    "else_icmp",
];

pub const ANY: Limits = Limits { registers: 128, specials: 256, discards: 3 };

/// The form of a diagram, each as often.
pub fn any_form(random: &mut Random) -> &'static Form {
    &FORMS[random.below(FORMS.len())]
}

/// Fields that have an encoding by this form, with operands within the limits.
pub fn fields(random: &mut Random, form: &Form, limits: Limits) -> Fields {
    let name = form.name;
    let mov = matches!(name, Name::Mov16 | Name::Mov32);
    let l = if mov { (form.value >> 15 & 1) as u8 } else { 0 };
    let mut fields = Fields { kind: name.kind(), length: form.length as u8, l, ..numbers(random, name, limits) };
    if has_destination(name) {
        fields.d = destination(random, name, limits, mov && l == 0);
    } else if !matches!(name, Name::JmpExecAny | Name::JmpExecNone) {
        fields.d.hint = random.bit();
    }
    for k in 0..sources(name) {
        let wide = name == Name::Iadd || name == Name::Imadd && k == 2;
        fields.sources[k] = source(random, limits, wide);
    }
    fields.kept = if random.bit() == 0 { 0 } else { random.number() & form.unknown };
    fields
}

/// The fields that are no operands.
fn numbers(random: &mut Random, name: Name, limits: Limits) -> Fields {
    let mut f = Fields::default();
    match name {
        Name::Mov16 => f.immediate = random.word() & 0xFFFF,
        Name::Mov32 | Name::JmpExecAny | Name::JmpExecNone => f.immediate = random.word(),
        Name::GetSr => f.immediate = random.below(limits.specials.max(1)) as u32,
        Name::Iadd | Name::Imadd => {
            (f.saturate, f.negate, f.shift) =
                (random.bit(), random.bit(), random.pick(&[0, 0, 0, 1, 2, 3, 4, 5, 6, 7]));
            f.signs = [random.bit(), random.bit(), if name == Name::Imadd { random.bit() } else { 0 }];
        }
        Name::Bfi | Name::Bfeil | Name::Extr | Name::Shlhi | Name::Shrhi => f.m = random.below(32) as u8,
        Name::Bitop => f.tt = [0; 4].map(|_: u8| random.bit()),
        Name::PopExec => f.n = random.below(4) as u8,
        Name::IfIcmp | Name::WhileIcmp | Name::ElseIcmp => {
            (f.cc, f.ccn, f.n) = (random.pick(&[0, 1, 2, 4, 5, 6]), random.bit(), random.below(4) as u8);
        }
        Name::Asr | Name::Asrh | Name::Bitrev | Name::Popcount | Name::Ffs => {}
    }
    f
}

/// A short mov has no Dx, so its destination is among the first 64 halves.
fn destination(random: &mut Random, name: Name, limits: Limits, short: bool) -> Operand {
    let kind = match name {
        Name::Mov16 => 1,
        Name::Mov32 => 2,
        Name::Iadd | Name::Imadd if limits.registers > 1 => random.pick(&[1, 2, 3]),
        _ => random.pick(&[1, 2]),
    };
    let registers = if short { limits.registers.min(32) } else { limits.registers };
    let mut operand = register(random, kind, registers);
    // r0l holds the mask stack; it is written less often than the others
    if operand.number < 2 && !random.once_in(8) {
        operand = register(random, kind, registers);
    }
    Operand { hint: random.bit(), ..operand }
}

fn source(random: &mut Random, limits: Limits, wide: bool) -> Operand {
    let kind = match random.below(10) {
        0..=2 => 1,
        3..=5 => 2,
        6 if wide && limits.registers > 1 => 3,
        7 if wide => 6,
        6 | 7 => 7,
        8 => 4,
        _ => random.pick(&[5, 7]),
    };
    let number = match kind {
        1..=3 => {
            let discards = limits.discards > 0 && random.once_in(limits.discards);
            let hint = if discards { 2 } else { random.bit() };
            return Operand { hint, ..register(random, kind, limits.registers) };
        }
        4 => random.below(512),
        6 => random.below(255),
        _ => random.below(256),
    };
    Operand { kind, hint: 0, number: number as u16 }
}

/// A half, a register or a pair below `registers`, without a hint.
fn register(random: &mut Random, kind: u8, registers: usize) -> Operand {
    let end = match kind {
        1 => 2 * registers,
        2 => registers,
        _ => registers - 1,
    };
    Operand { kind, hint: 0, number: random.below(end) as u16 }
}

/// The bytes of an instruction that decodes.
pub fn good(random: &mut Random, form: &Form, limits: Limits) -> Vec<u8> {
    encoded(&fields(random, form, limits))
}

/// The bytes of fields that have an encoding.
pub fn encoded(fields: &Fields) -> Vec<u8> {
    let (word, length) = encode(&fields.to_bytes()).expect("fields that have an encoding");
    word.to_le_bytes()[..length].to_vec()
}

/// Bytes with the fixed bits of a form and the others random: most operands there mean something, many do not.
pub fn shaped(random: &mut Random, form: &Form) -> Vec<u8> {
    let word = random.number() & !form.fixed | form.value;
    word.to_le_bytes()[..form.length].to_vec()
}

/// Bytes that decode, with all fields random.
pub fn decodable(random: &mut Random) -> Vec<u8> {
    loop {
        let form = any_form(random);
        let bytes = shaped(random, form);
        if decode(&bytes).is_ok() {
            return bytes;
        }
    }
}

/// Turns one to three bits round.
pub fn flip(random: &mut Random, bytes: &mut [u8]) {
    for _ in 0..1 + random.below(3) {
        let at = random.below(8 * bytes.len());
        bytes[at / 8] ^= 1 << (at % 8);
    }
}

/// Instructions of every kind, and bytes that are near one or are none.
pub fn any_bytes(random: &mut Random) -> Vec<u8> {
    let form = any_form(random);
    let mut bytes = match random.below(8) {
        0..=2 => return good(random, form, ANY),
        3 => return shaped(random, form),
        4 => return random.bytes(12),
        5 => shaped(random, form),
        _ => good(random, form, ANY),
    };
    flip(random, &mut bytes);
    bytes
}
