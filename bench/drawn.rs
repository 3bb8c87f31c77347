//! The codes that are decoded for the timing, drawn at random and always the same: instructions of some names, and bytes that are
//! refused.

use crate::plain::calls::decode;
use crate::plain::find::{Form, Name, FORMS};
use crate::plain::form::FORM_BYTES;
use std::ops::Range;

/// The most bytes of a kernel, and of an instruction.
pub const MOST_BYTES: usize = 8192;
const LONGEST: usize = 8;

/// What codes hold.
#[derive(Clone, Copy)]
pub enum Holds {
    /// The instructions from the first name to the last, in the order of document 002: each of their forms, as often, in no order.
    Instructions(Name, Name),
    /// Bytes that are refused with this number: 2, 3 or 4.
    Refused(i32),
}
use Holds::*;

/// Codes side by side, no more bytes than a kernel has: one kernel, or one code for each refusal.
pub struct Codes {
    bytes: Vec<u8>,
    places: Vec<Range<usize>>,
}

/// What a call of decode gave, and what it left of the byte form.
pub type Left = (i32, [u8; FORM_BYTES]);

impl Codes {
    pub fn draw(random: &mut Random, holds: Holds) -> Codes {
        let forms = holds.forms();
        let mut bytes = Vec::new();
        let mut places = Vec::new();
        while bytes.len() + LONGEST <= MOST_BYTES {
            let start = bytes.len();
            bytes.extend(random.one(holds, &forms));
            places.push(start..bytes.len());
        }
        if let Instructions(..) = holds {
            places.clear();
            places.push(0..bytes.len());
        }
        Codes { bytes, places }
    }

    pub fn each(&self) -> Vec<&[u8]> {
        self.places.iter().map(|place| &self.bytes[place.clone()]).collect()
    }
}

impl Holds {
    /// The forms whose fixed bits are drawn from.
    fn forms(self) -> Vec<&'static Form> {
        let is_held = |form: &&Form| match self {
            Instructions(first, last) => (first.kind()..=last.kind()).contains(&form.name.kind()),
            Refused(_) => true,
        };
        FORMS.iter().filter(is_held).collect()
    }

    /// Whether the codes were what they are said to be: each of the forms and no other, or the refusal and nothing else.
    pub fn shown_by(self, left: &[Left]) -> bool {
        let is_of = |(answer, bytes): &Left, form: &Form| (*answer, bytes[0]) == (form.length as i32, form.name.kind());
        match self {
            Instructions(..) => {
                let forms = self.forms();
                forms.iter().all(|form| left.iter().any(|one| is_of(one, form)))
                    && left.iter().all(|one| forms.iter().any(|form| is_of(one, form)))
            }
            Refused(number) => !left.is_empty() && left.iter().all(|(answer, _)| *answer == -number),
        }
    }
}

/// Random numbers: xorshift, from a fixed state.
pub struct Random(u64);

impl Default for Random {
    fn default() -> Random {
        Random(0x2545_F491_4F6C_DD1D)
    }
}

impl Random {
    fn number(&mut self) -> u64 {
        self.0 ^= self.0 >> 12;
        self.0 ^= self.0 << 25;
        self.0 ^= self.0 >> 27;
        self.0.wrapping_mul(0x2545_F491_4F6C_DD1D)
    }

    fn pick<T: Copy>(&mut self, from: &[T]) -> T {
        from[(self.number() >> 32) as usize % from.len()]
    }

    /// One instruction, or one code that is refused: drawn until the plain program answers so.
    fn one(&mut self, holds: Holds, forms: &[&Form]) -> Vec<u8> {
        let mut form = self.pick(forms);
        loop {
            let (code, answer) = match holds {
                Instructions(..) => (self.shaped(form)[..form.length].to_vec(), form.length as i32),
                Refused(number) => (self.refusable(number, form), -number),
            };
            if decode(&code, 0, &mut [0; FORM_BYTES]) == answer {
                return code;
            }
            // an instruction is drawn again, so that each form comes as often; not every form can be refused
            if let Refused(_) = holds {
                form = self.pick(forms);
            }
        }
    }

    /// The fixed bits of a form and all others random, also those of what stands behind it.
    fn shaped(&mut self, form: &Form) -> [u8; LONGEST] {
        (self.number() & !form.fixed | form.value).to_le_bytes()
    }

    /// The same, cut short for 2, with a fixed bit turned round for 3; for 4 the operands may have no meaning.
    fn refusable(&mut self, number: i32, form: &Form) -> Vec<u8> {
        let mut code = self.shaped(form).to_vec();
        if number == 2 {
            let lengths: Vec<usize> = (1..form.length).collect();
            code.truncate(self.pick(&lengths));
        } else if number == 3 {
            let fixed: Vec<usize> = (0..8 * LONGEST).filter(|bit| form.fixed >> bit & 1 == 1).collect();
            let bit = self.pick(&fixed);
            code[bit / 8] ^= 1 << (bit % 8);
        }
        code
    }
}
