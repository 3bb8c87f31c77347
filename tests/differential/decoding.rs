//! Decoding compared: the answer and every byte of the buffer.

use crate::exported;
use crate::guarded::{Access, Guarded};
use crate::instructions::{any_bytes, WORDS};
use crate::plain::calls;
use crate::plain::form::FORM_BYTES;
use crate::random::Random;
use crate::report::{both, hex, Report};

const GROUP: u64 = 1;
const MOST_CODE: usize = 9000;

struct Case {
    code: Vec<u8>,
    offset: usize,
    instruction: Vec<u8>,
}

/// Memory that is lent again and again, and what happened so far.
struct Decoding {
    code: Guarded,
    instruction: Guarded,
    refused: [u64; 5],
    decoded: [u64; 23],
    /// With an offset in the code and a buffer below 48 bytes, by the number of the refusal.
    short: [u64; 5],
}

pub fn compare(report: &mut Report, seed: u64, cases: u64) {
    let (code, instruction) = (Guarded::new(MOST_CODE, Access::ReadOnly), Guarded::new(128, Access::Writable));
    let mut decoding = Decoding { code, instruction, refused: [0; 5], decoded: [0; 23], short: [0; 5] };
    report.compare("decode", cases, |number| decoding.one(&mut Random::of_case(seed, GROUP, number)));
    for number in 1..decoding.refused.len() {
        report.happened(&format!("decode refused {number}"), decoding.refused[number]);
    }
    report.happened("decode refused 1 for an offset above the code length", decoding.refused[1] - decoding.short[1]);
    report.happened("decode refused 1 for an instruction and a short buffer", decoding.short[1]);
    for number in 2..decoding.short.len() {
        report.happened(&format!("decode refused {number}, with a short buffer too"), decoding.short[number]);
    }
    for (word, times) in WORDS.iter().zip(&decoding.decoded[1..]) {
        report.happened(&format!("decoded {word}"), *times);
    }
}

impl Decoding {
    /// Compares one case; the text of a difference.
    fn one(&mut self, random: &mut Random) -> Option<String> {
        let Case { code, offset, instruction } = case(random);
        let mut wanted = instruction.clone();
        let want = calls::decode(&code, offset, &mut wanted);
        self.code.put(&code, random.bit() == 1);
        self.instruction.put(&instruction, random.bit() == 1);
        let got = exported::decode(self.code.lent(), offset, self.instruction.lent_mut());
        match want {
            1.. => self.decoded[wanted[0] as usize] += 1,
            _ => self.refused[-want as usize] += 1,
        }
        if offset <= code.len() && instruction.len() < FORM_BYTES {
            self.short[-want as usize] += 1;
        }
        let intact = self.code.intact() && self.instruction.intact();
        if got == want && self.instruction.left() == wanted && intact {
            return None;
        }
        let sides = both(&instruction, (want, &wanted), (got, self.instruction.left()), intact);
        Some(format!("offset {offset}, code {}\n{sides}", hex(&code)))
    }
}

fn case(random: &mut Random) -> Case {
    let mut bytes = any_bytes(random);
    if random.bit() == 1 {
        let length = random.below(13);
        let more = random.bytes(12);
        bytes.extend(more);
        bytes.truncate(length);
    }
    let before = match random.below(200) {
        0 => random.below(MOST_CODE - 12),
        1..=100 => random.below(20),
        _ => 0,
    };
    let mut code = random.bytes(before);
    code.extend(bytes);
    let offset = match random.below(20) {
        0 => code.len() + random.below(3),
        1 => random.pick(&[usize::MAX, usize::MAX - 1, 1 << 32, 1 << 63, code.len() + (1 << 32)]),
        _ => before,
    };
    let room = match random.below(8) {
        0 => random.pick(&[0, 1, 24, 46, 47]),
        1 => random.pick(&[49, 50, 64, 96]),
        _ => 48,
    };
    Case { code, offset, instruction: random.bytes(room) }
}
