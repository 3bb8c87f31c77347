//! The byte form of an instruction, docs/byte-form.md: its fields as numbers, their places in the 48 bytes, and which bytes spell
//! an instruction at all. A form can spell an instruction that has no encoding; `encode` says which have one.

use super::find::{Form, Name, FORMS};

/// The bytes of a form.
pub const FORM_BYTES: usize = 48;

/// An operand: 0 none, 1 half, 2 register, 3 pair, 4 uniform half, 5 uniform, 6 uniform pair, 7 immediate.
#[derive(Clone, Copy, Debug, Default, PartialEq, Eq)]
pub struct Operand {
    pub kind: u8,
    pub hint: u8,
    pub number: u16,
}

/// The fields of a form. Sources and signs stand in the order A, B, C.
#[derive(Clone, Copy, Debug, Default, PartialEq, Eq)]
pub struct Fields {
    pub kind: u8,
    pub length: u8,
    pub l: u8,
    pub m: u8,
    pub d: Operand,
    pub sources: [Operand; 3],
    pub immediate: u32,
    pub saturate: u8,
    pub negate: u8,
    pub signs: [u8; 3],
    pub shift: u8,
    pub tt: [u8; 4],
    pub cc: u8,
    pub ccn: u8,
    pub n: u8,
    pub reserved: [u8; 3],
    pub kept: u64,
}

impl Operand {
    fn to_bytes(self) -> [u8; 4] {
        let [low, high] = self.number.to_le_bytes();
        [self.kind, self.hint, low, high]
    }

    fn from_bytes([kind, hint, low, high]: [u8; 4]) -> Operand {
        Operand { kind, hint, number: u16::from_le_bytes([low, high]) }
    }

    /// A kind up to `most`, a hint, and a number of one byte or a uniform half's of two.
    fn is_one(self, most: u8) -> bool {
        (1..=most).contains(&self.kind) && self.hint <= 2 && (self.number < 256 || self.kind == 4)
    }
}

impl Fields {
    pub fn to_bytes(self) -> [u8; FORM_BYTES] {
        let [a, b, c] = self.sources.map(Operand::to_bytes);
        let [sa, sb, sc] = self.signs;
        let mut bytes = [0; FORM_BYTES];
        bytes[..4].copy_from_slice(&[self.kind, self.length, self.l, self.m]);
        bytes[4..20].copy_from_slice([self.d.to_bytes(), a, b, c].as_flattened());
        bytes[20..24].copy_from_slice(&self.immediate.to_le_bytes());
        bytes[24..30].copy_from_slice(&[self.saturate, self.negate, sa, sb, sc, self.shift]);
        bytes[30..34].copy_from_slice(&self.tt);
        bytes[34..37].copy_from_slice(&[self.cc, self.ccn, self.n]);
        bytes[37..40].copy_from_slice(&self.reserved);
        bytes[40..].copy_from_slice(&self.kept.to_le_bytes());
        bytes
    }

    pub fn from_bytes(bytes: &[u8; FORM_BYTES]) -> Fields {
        let four = |at: usize| [bytes[at], bytes[at + 1], bytes[at + 2], bytes[at + 3]];
        let eight = |at: usize| u32::from_le_bytes(four(at)) as u64 | (u32::from_le_bytes(four(at + 4)) as u64) << 32;
        Fields {
            kind: bytes[0],
            length: bytes[1],
            l: bytes[2],
            m: bytes[3],
            d: Operand::from_bytes(four(4)),
            sources: [8, 12, 16].map(|at| Operand::from_bytes(four(at))),
            immediate: u32::from_le_bytes(four(20)),
            saturate: bytes[24],
            negate: bytes[25],
            signs: [bytes[26], bytes[27], bytes[28]],
            shift: bytes[29],
            tt: four(30),
            cc: bytes[34],
            ccn: bytes[35],
            n: bytes[36],
            reserved: [bytes[37], bytes[38], bytes[39]],
            kept: eight(40),
        }
    }

    /// The form of the diagram that the kind and l say: the short one where l is 0.
    pub fn diagram(&self) -> Option<&'static Form> {
        let mut forms = FORMS.iter().filter(|form| form.name.kind() == self.kind);
        if self.l == 0 {
            forms.next()
        } else {
            forms.next_back()
        }
    }

    /// Whether the operands and the immediate are within what the form of `name` can say.
    fn fits(&self, name: Name) -> bool {
        let most = match name {
            Name::Mov16 => 0xFFFF,
            Name::GetSr => 0xFF,
            _ => u32::MAX,
        };
        let d = if has_destination(name) { self.d.is_one(3) } else { self.d.hint <= 2 };
        d && self.sources[..sources(name)].iter().all(|source| source.is_one(7)) && self.immediate <= most
    }
}

impl Name {
    /// The number of the kind in the byte form.
    pub fn kind(self) -> u8 {
        self as u8 + 1
    }
}

/// Mask instructions work on r0l, of which the form has the hint alone; jumps have no operand.
pub fn has_destination(name: Name) -> bool {
    name.kind() <= Name::Ffs.kind()
}

/// How many sources an instruction has.
pub fn sources(name: Name) -> usize {
    match name {
        Name::Mov16 | Name::Mov32 | Name::GetSr | Name::JmpExecAny | Name::JmpExecNone | Name::PopExec => 0,
        Name::Bitrev | Name::Popcount | Name::Ffs => 1,
        Name::Iadd | Name::Asr | Name::Asrh | Name::Bitop | Name::IfIcmp | Name::WhileIcmp | Name::ElseIcmp => 2,
        Name::Imadd | Name::Bfi | Name::Bfeil | Name::Extr | Name::Shlhi | Name::Shrhi => 3,
    }
}

/// The bytes of a form that an instruction uses, besides kind and length: each range from its first byte to before its end.
pub fn used(name: Name) -> &'static [(usize, usize)] {
    match name {
        Name::Mov16 | Name::Mov32 => &[(2, 3), (4, 8), (20, 24), (40, 48)],
        Name::GetSr => &[(4, 8), (20, 24), (40, 48)],
        Name::Iadd => &[(4, 16), (24, 28), (29, 30), (40, 48)],
        Name::Imadd => &[(4, 20), (24, 30), (40, 48)],
        Name::Bfi | Name::Bfeil | Name::Extr | Name::Shlhi | Name::Shrhi => &[(3, 20), (40, 48)],
        Name::Asr | Name::Asrh => &[(4, 16), (40, 48)],
        Name::Bitop => &[(4, 16), (30, 34), (40, 48)],
        Name::Bitrev | Name::Popcount | Name::Ffs => &[(4, 12), (40, 48)],
        Name::JmpExecAny | Name::JmpExecNone => &[(20, 24)],
        Name::PopExec => &[(5, 6), (36, 37), (40, 48)],
        Name::IfIcmp | Name::WhileIcmp | Name::ElseIcmp => &[(5, 6), (8, 16), (34, 37), (40, 48)],
    }
}

/// The fields that the bytes spell and the form of their diagram, or nothing where they spell no instruction.
pub fn spelled(bytes: &[u8]) -> Option<(Fields, &'static Form)> {
    let bytes: &[u8; FORM_BYTES] = bytes.try_into().ok()?;
    let fields = Fields::from_bytes(bytes);
    let form = fields.diagram()?;
    let in_use = |at: usize| at < 2 || used(form.name).iter().any(|(first, end)| (*first..*end).contains(&at));
    let idle_bytes_are_zero = (0..FORM_BYTES).all(|at| bytes[at] == 0 || in_use(at));
    (idle_bytes_are_zero && fields.length as usize == form.length && fields.fits(form.name)).then_some((fields, form))
}
