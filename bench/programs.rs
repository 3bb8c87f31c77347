//! The two programs as they are timed: the plain one on words, the proved one through its exported function on bytes.

use crate::exported::{answered, bytes, run};
use crate::kernels::{Lent, BUDGET};
use crate::plain::calls::{words, Call, ANSWER_BYTES};
use crate::plain::{self, Answer};
use std::time::{Duration, Instant};

pub trait Program {
    /// One run of the code from address 0 with the whole budget, and the time of the call alone.
    fn run(&mut self, code: &[u8], mask: u32) -> (Answer, Duration);

    /// The registers, the marks and the records that the last run left.
    fn left(&self) -> (Vec<u32>, &[u8], &[u8]);
}

pub struct Plain(pub Lent);

pub struct Proved {
    registers: Vec<u8>,
    marks: Vec<u8>,
    uniforms: Vec<u8>,
    specials: Vec<u8>,
    records: Vec<u8>,
}

impl From<Lent> for Proved {
    fn from(lent: Lent) -> Proved {
        let [registers, uniforms, specials] = [lent.registers, lent.uniforms, lent.specials].map(|words| bytes(&words));
        Proved { registers, marks: lent.marks, uniforms, specials, records: lent.records }
    }
}

impl Program for Plain {
    fn run(&mut self, code: &[u8], mask: u32) -> (Answer, Duration) {
        let Lent { registers, marks, uniforms, specials, records } = &mut self.0;
        let start = Instant::now();
        let answer = plain::run(code, registers, marks, uniforms, specials, 0, mask, BUDGET, records);
        (answer, start.elapsed())
    }

    fn left(&self) -> (Vec<u32>, &[u8], &[u8]) {
        (self.0.registers.clone(), &self.0.marks, &self.0.records)
    }
}

impl Program for Proved {
    fn run(&mut self, code: &[u8], mask: u32) -> (Answer, Duration) {
        let Proved { registers, marks, uniforms, specials, records } = self;
        let mut left = [0; ANSWER_BYTES];
        let answer = &mut left;
        let call = Call { code, registers, marks, uniforms, specials, start: 0, mask, budget: BUDGET, records, answer };
        let start = Instant::now();
        let given = run(call);
        let time = start.elapsed();
        (answered(given, &left), time)
    }

    fn left(&self) -> (Vec<u32>, &[u8], &[u8]) {
        (words(&self.registers), &self.marks, &self.records)
    }
}
