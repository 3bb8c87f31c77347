//! Finding: which of the built diagrams the bytes at an address match, from their fixed bits alone.

use super::Refusal;

/// The built instructions in the order of document 002; a mov has one name for its short and its long form.
#[derive(Clone, Copy, Debug, PartialEq, Eq)]
pub enum Name {
    Mov16,
    Mov32,
    GetSr,
    Iadd,
    Imadd,
    Bfi,
    Bfeil,
    Extr,
    Shlhi,
    Shrhi,
    Asr,
    Asrh,
    Bitop,
    Bitrev,
    Popcount,
    Ffs,
    JmpExecAny,
    JmpExecNone,
    PopExec,
    IfIcmp,
    WhileIcmp,
    ElseIcmp,
}

/// One form of a diagram: its length in bytes, which bits are fixed and to what, and which bits are unknown and kept.
pub struct Form {
    pub name: Name,
    pub length: usize,
    pub fixed: u64,
    pub value: u64,
    pub unknown: u64,
}

const fn form(name: Name, length: usize, fixed: u64, value: u64, unknown: u64) -> Form {
    Form { name, length, fixed, value, unknown }
}

/// The bits from `high` down to `low`.
const fn span(high: u32, low: u32) -> u64 {
    (u64::MAX >> (63 - high)) & (u64::MAX << low)
}

const L: u64 = 1 << 15;
const LOW7: u64 = span(6, 0);
const SHIFT: u64 = LOW7 | 1 << 15 | span(27, 26);
const SCAN: u64 = LOW7 | 1 << 15 | span(39, 26);
const COMPARE: u64 = LOW7 | span(10, 9) | span(27, 26) | span(39, 38) | span(45, 44);
const FIELD_UNKNOWN: u64 = 1 << 62 | span(53, 52);
const ASR_UNKNOWN: u64 = span(63, 62) | span(55, 38);
const SCAN_UNKNOWN: u64 = span(47, 46) | span(41, 40);

/// A diagram with a bit L has two forms, in which L is a fixed bit.
#[rustfmt::skip]
pub const FORMS: [Form; 24] = [
    form(Name::Mov16, 4, LOW7 | 1 << 8 | L, 0b1100010, 0),
    form(Name::Mov16, 6, LOW7 | 1 << 8 | L, 0b1100010 | L, span(47, 46) | span(43, 32)),
    form(Name::Mov32, 6, LOW7 | 1 << 8 | L, 0b1100010 | 1 << 8, 0),
    form(Name::Mov32, 8, LOW7 | 1 << 8 | L, 0b1100010 | 1 << 8 | L, span(63, 62) | span(59, 48)),
    form(Name::GetSr, 4, LOW7 | 1 << 15, 0b1110010, span(31, 30) | span(25, 22)),
    form(Name::Iadd, 8, span(5, 0) | 1 << 15, 0b001110, span(63, 54) | span(51, 46)),
    form(Name::Imadd, 8, span(5, 0) | 1 << 15, 0b011110, span(63, 62) | 1 << 51),
    form(Name::Bfi, 8, SHIFT, 0b0101110, FIELD_UNKNOWN),
    form(Name::Bfeil, 8, SHIFT, 0b0101110 | 1 << 15, FIELD_UNKNOWN),
    form(Name::Extr, 8, SHIFT, 0b0101110 | 0b01 << 26, FIELD_UNKNOWN),
    form(Name::Shlhi, 8, SHIFT, 0b0101110 | 0b10 << 26, FIELD_UNKNOWN),
    form(Name::Shrhi, 8, SHIFT, 0b0101110 | 1 << 15 | 0b10 << 26, FIELD_UNKNOWN),
    form(Name::Asr, 8, SHIFT, 0b0101110 | 1 << 15 | 0b01 << 26, ASR_UNKNOWN),
    form(Name::Asrh, 8, SHIFT, 0b0101110 | 1 << 15 | 0b11 << 26, ASR_UNKNOWN),
    form(Name::Bitop, 6, LOW7 | 1 << 15, 0b1111110, span(47, 46)),
    form(Name::Bitrev, 6, SCAN, 0b0111110 | 0b01 << 26, SCAN_UNKNOWN),
    form(Name::Popcount, 6, SCAN, 0b0111110 | 0b10 << 26, SCAN_UNKNOWN),
    form(Name::Ffs, 6, SCAN, 0b0111110 | 0b11 << 26, SCAN_UNKNOWN),
    form(Name::JmpExecAny, 6, span(15, 0), 0b11000000_00000000, 0),
    form(Name::JmpExecNone, 6, span(15, 0), 0b11000000_00100000, 0),
    form(Name::PopExec, 6, LOW7 | span(10, 9) | span(47, 13), 0b1010010 | 0b11 << 9, 1 << 8),
    form(Name::IfIcmp, 6, COMPARE, 0b1010010, span(47, 46)),
    form(Name::WhileIcmp, 6, COMPARE, 0b1010010 | 0b10 << 9, span(47, 46)),
    form(Name::ElseIcmp, 6, COMPARE, 0b1010010 | 0b01 << 9, span(47, 46)),
];

/// For each value of an instruction's lowest seven bits, the forms that can have it: they stand side by side in `FORMS`.
const CANDIDATES: [(u8, u8); 128] = {
    let mut table = [(0, 0); 128];
    let mut low = 0;
    while low < 128 {
        let mut i = 0;
        while i < FORMS.len() {
            if (low as u64 ^ FORMS[i].value) & FORMS[i].fixed & LOW7 == 0 {
                let (first, end) = table[low];
                table[low] = (if end == 0 { i as u8 } else { first }, i as u8 + 1);
            }
            i += 1;
        }
        low += 1;
    }
    table
};

/// The form that the lent bytes match. `word` holds the first eight of them, missing ones zero; `lent` is their number, up to 8.
///
/// No two forms can match the same bytes (`tests::forms_exclude_each_other`), so the first that matches is the one.
#[inline]
pub fn find(word: u64, lent: usize) -> Result<&'static Form, Refusal> {
    let (first, end) = CANDIDATES[(word & LOW7) as usize];
    let mut candidates = FORMS[first as usize..end as usize].iter();
    match candidates.find(|form| word & form.fixed == form.value && form.length <= lent) {
        Some(form) => Ok(form),
        None => Err(refusal(word, lent)),
    }
}

/// 2 where a form agrees in all its fixed bits lent so far and is longer than what is lent, otherwise 3.
#[cold]
fn refusal(word: u64, lent: usize) -> Refusal {
    let seen = if lent < 8 { (1 << (8 * lent)) - 1 } else { u64::MAX };
    let cut_short = FORMS.iter().any(|form| (word ^ form.value) & form.fixed & seen == 0 && form.length > lent);
    if cut_short {
        2
    } else {
        3
    }
}

#[cfg(test)]
mod tests {
    use super::*;

    #[test]
    fn forms_exclude_each_other() {
        for (i, a) in FORMS.iter().enumerate() {
            for b in &FORMS[i + 1..] {
                assert_ne!((a.value ^ b.value) & a.fixed & b.fixed, 0, "{:?} and {:?}", a.name, b.name);
            }
        }
    }

    #[test]
    fn candidates_hold_every_form() {
        for (i, form) in FORMS.iter().enumerate() {
            for low in (0..128).filter(|low| (low ^ form.value) & form.fixed & LOW7 == 0) {
                let (first, end) = CANDIDATES[low as usize];
                assert!((first as usize..end as usize).contains(&i));
            }
        }
    }

    #[test]
    fn no_bit_is_fixed_and_unknown_or_beyond_the_length() {
        for form in &FORMS {
            assert_eq!(form.fixed & form.unknown, 0);
            assert_eq!(form.value & !form.fixed, 0);
            assert_eq!((form.fixed | form.unknown) & !span(8 * form.length as u32 - 1, 0), 0);
        }
    }
}
