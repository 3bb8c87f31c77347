//! The comparison of two kernels. Both are walked from address 0, one instruction of each at a time, up to a refusal, an end or the
//! first instruction in which they differ; so both walks are always at the same address.

use super::decode::decode;
use super::find::Name;
use super::form::Fields;
use super::Refusal;

const MOST_CODE: usize = 8192;

/// A kernel is 1 or 2.
#[derive(Clone, Copy, Debug, PartialEq, Eq)]
pub enum Comparison {
    Same,
    Differs { address: usize, field: Field },
    Ended { address: usize, kernel: u8 },
    Refused { address: usize, refusal: Refusal, kernel: u8 },
}

/// What two instructions can differ in, in the order in which it is looked for. A source has its letter, another field its lowest bit.
#[derive(Clone, Copy, Debug, PartialEq, Eq)]
pub enum Field {
    Instruction,
    Length,
    Destination,
    Source(char),
    Immediate,
    Other(u8),
    Hint,
    Bit,
}

pub fn compare(first: &[u8], second: &[u8]) -> Comparison {
    for (kernel, code) in [(1, first), (2, second)] {
        if code.len() > MOST_CODE {
            return Comparison::Refused { address: 0, refusal: 1, kernel };
        }
    }
    let mut address = 0;
    loop {
        let (one, other) = match (next(first, address), next(second, address)) {
            (Err(refusal), _) => return Comparison::Refused { address, refusal, kernel: 1 },
            (_, Err(refusal)) => return Comparison::Refused { address, refusal, kernel: 2 },
            (Ok(None), Ok(None)) => return Comparison::Same,
            (Ok(None), _) => return Comparison::Ended { address, kernel: 1 },
            (_, Ok(None)) => return Comparison::Ended { address, kernel: 2 },
            (Ok(Some(one)), Ok(Some(other))) => (one, other),
        };
        if let Some(field) = difference(&one, &other) {
            return Comparison::Differs { address, field };
        }
        address += one.length as usize;
    }
}

/// The instruction at an address, or none at the end.
fn next(code: &[u8], address: usize) -> Result<Option<Fields>, Refusal> {
    if address == code.len() {
        return Ok(None);
    }
    decode(&code[address..]).map(|instruction| Some(Fields::of(&instruction)))
}

/// The first field in which two instructions differ. Operands are compared by what they name; their hints come later.
fn difference(one: &Fields, other: &Fields) -> Option<Field> {
    if one.kind != other.kind {
        return Some(Field::Instruction);
    }
    if one.length != other.length {
        return Some(Field::Length);
    }
    if (one.d.kind, one.d.number) != (other.d.kind, other.d.number) {
        return Some(Field::Destination);
    }
    for ((letter, a), b) in ['A', 'B', 'C'].into_iter().zip(one.sources).zip(other.sources) {
        if (a.kind, a.number) != (b.kind, b.number) {
            return Some(Field::Source(letter));
        }
    }
    if immediate(one) != immediate(other) {
        return Some(Field::Immediate);
    }
    for ((lowest, a), (_, b)) in others(one).into_iter().zip(others(other)) {
        if a != b {
            return Some(Field::Other(lowest));
        }
    }
    if hints(one) != hints(other) {
        return Some(Field::Hint);
    }
    (one.kept != other.kept).then_some(Field::Bit)
}

/// imm16 or imm32 of a mov.
fn immediate(fields: &Fields) -> Option<u32> {
    let mov = [Name::Mov16, Name::Mov32].iter().any(|name| name.kind() == fields.kind);
    mov.then_some(fields.immediate)
}

/// The fields that are no operands, by the lowest bit of their diagrams. Of two at the same bit an instruction has one at most; what it
/// does not have is 0.
fn others(fields: &Fields) -> [(u8, u32); 15] {
    let [sign_a, sign_b, sign_c] = fields.signs.map(u32::from);
    let [tt0, tt1, tt2, tt3] = fields.tt.map(u32::from);
    [
        (6, fields.saturate.into()),
        (8, fields.ccn.into()),
        (11, fields.n.into()),
        (13, fields.cc.into()),
        // SRx:SR of get_sr, off of the jumps; that of a mov has been compared
        (16, fields.immediate),
        (26, sign_a),
        (26, tt0),
        (27, fields.negate.into()),
        (27, tt1),
        (38, sign_b),
        (38, tt2),
        // m3:m2:m1
        (38, fields.m.into()),
        // s2:s1
        (39, fields.shift.into()),
        (39, tt3),
        (50, sign_c),
    ]
}

/// The destination's, or r0l's in a mask instruction, and the sources'.
fn hints(fields: &Fields) -> [u8; 4] {
    let [a, b, c] = fields.sources.map(|source| source.hint);
    [fields.d.hint, a, b, c]
}

impl Comparison {
    /// The line that a program prints, without its line feed.
    pub fn line(&self) -> String {
        match *self {
            Comparison::Same => "same".to_string(),
            Comparison::Differs { address, field } => format!("{address:04X} {}", field.words()),
            Comparison::Ended { address, kernel } => format!("{address:04X} ended {kernel}"),
            Comparison::Refused { address, refusal, kernel } => format!("{address:04X} refused {refusal} {kernel}"),
        }
    }
}

impl Field {
    fn words(self) -> String {
        match self {
            Field::Instruction => "instruction".to_string(),
            Field::Length => "length".to_string(),
            Field::Destination => "destination".to_string(),
            Field::Source(letter) => format!("source {letter}"),
            Field::Immediate => "immediate".to_string(),
            Field::Other(lowest) => format!("field {lowest}"),
            Field::Hint => "hint".to_string(),
            Field::Bit => "bit".to_string(),
        }
    }
}
