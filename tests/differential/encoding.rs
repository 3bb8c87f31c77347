//! Encoding compared: the answer and every byte of the buffer. A decoded instruction must also give the bytes that it came from.

use crate::damage;
use crate::exported;
use crate::guarded::{Access, Guarded};
use crate::plain::calls;
use crate::plain::form::spelled;
use crate::random::Random;
use crate::report::{both, hex, Report};

const GROUP: u64 = 2;
const MOST: usize = 128;

struct Case {
    form: Vec<u8>,
    out: Vec<u8>,
    /// The encoding that the form was decoded from, if it was and there is room for it.
    whole: Option<Vec<u8>>,
}

/// Memory that is lent again and again, and what happened so far.
struct Encoding {
    form: Guarded,
    out: Guarded,
    refused: [u64; 10],
    encoded: [u64; 9],
    given_back: u64,
    /// Refused with 8, although the bytes spell an instruction.
    without_encoding: u64,
}

pub fn compare(report: &mut Report, seed: u64, cases: u64) {
    let (form, out) = (Guarded::new(MOST, Access::ReadOnly), Guarded::new(MOST, Access::Writable));
    let mut encoding = Encoding { form, out, refused: [0; 10], encoded: [0; 9], given_back: 0, without_encoding: 0 };
    report.compare("encode", cases, |number| encoding.one(&mut Random::of_case(seed, GROUP, number)));
    report.happened("encode gave the decoded bytes back", encoding.given_back);
    for number in [8, 9] {
        report.happened(&format!("encode refused {number}"), encoding.refused[number]);
    }
    report.happened("encode refused 8 for bytes that spell nothing", encoding.refused[8] - encoding.without_encoding);
    report.happened("encode refused 8 for an instruction without an encoding", encoding.without_encoding);
    for length in [4, 6, 8] {
        report.happened(&format!("encoded to {length} bytes"), encoding.encoded[length]);
    }
}

impl Encoding {
    /// Compares one case; the text of a difference.
    fn one(&mut self, random: &mut Random) -> Option<String> {
        let Case { form, out, whole } = case(random);
        let mut wanted = out.clone();
        let want = calls::encode(&form, &mut wanted);
        self.form.put(&form, random.bit() == 1);
        self.out.put(&out, random.bit() == 1);
        let got = exported::encode(self.form.lent(), self.out.lent_mut());
        match want {
            1.. => self.encoded[want as usize] += 1,
            _ => self.refused[-want as usize] += 1,
        }
        self.without_encoding += (want == -8 && spelled(&form).is_some()) as u64;
        let gives = |bytes: &Vec<u8>| got == bytes.len() as i32 && self.out.left().starts_with(bytes);
        let back = whole.as_ref().is_none_or(gives);
        self.given_back += (whole.is_some() && back) as u64;
        let intact = self.form.intact() && self.out.intact();
        if got == want && self.out.left() == wanted && back && intact {
            return None;
        }
        let from = whole.map_or(String::new(), |bytes| format!(", decoded from {}", hex(&bytes)));
        let sides = both(&out, (want, &wanted), (got, self.out.left()), intact);
        Some(format!("form {}{from}\n{sides}", hex(&form)))
    }
}

fn case(random: &mut Random) -> Case {
    let (form, encoding) = damage::form(random);
    let room = if random.bit() == 1 { 8 } else { random.below(13) };
    let whole = encoding.filter(|bytes| bytes.len() <= room);
    Case { form, out: random.bytes(room), whole }
}
