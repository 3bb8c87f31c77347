//! Runs compared: the number, the answer's bytes, all registers, all marks and the whole record room.

use crate::arrange::{BAD, MOST_MARKS};
use crate::beyond;
use crate::exported;
use crate::guarded::{Access, Guarded};
use crate::kernels::{self, Run};
use crate::met::Met;
use crate::plain::calls::{self, Call};
use crate::random::Random;
use crate::report::{hex, Report};
use crate::stepped::Stepped;

const GROUP: u64 = 3;
/// One run in so many begins with a register that is not lent beside one that is marked.
const ONE_BEYOND_IN: usize = 50;
/// One run in so many is badly arranged.
const ONE_BAD_IN: usize = 5;

/// Memory that is lent again and again.
pub struct Rooms {
    code: Guarded,
    registers: Guarded,
    marks: Guarded,
    uniforms: Guarded,
    specials: Guarded,
    records: Guarded,
    answer: Guarded,
}

/// What a run gave, and what it left in what it may write.
#[derive(PartialEq)]
pub struct Left {
    pub given: i32,
    pub registers: Vec<u8>,
    pub marks: Vec<u8>,
    pub records: Vec<u8>,
    pub answer: Vec<u8>,
}

struct Running {
    rooms: Rooms,
    /// By number; 8 and 9 are the encoder's.
    refused: [u64; 11],
    bad: [u64; BAD.len()],
    stepped: Stepped,
    met: Met,
}

pub fn compare(report: &mut Report, seed: u64, cases: u64) {
    let mut running = Running {
        rooms: Rooms::new(),
        refused: [0; 11],
        bad: [0; BAD.len()],
        stepped: Stepped::default(),
        met: Met::default(),
    };
    report.compare("run", cases, |number| running.one(&mut Random::of_case(seed, GROUP, number)));
    for number in (1..8).chain([10]) {
        report.happened(&format!("run refused {number}"), running.refused[number]);
    }
    for ((what, _), times) in BAD.iter().zip(running.bad) {
        report.happened(&format!("run refused 1 for {what}"), times);
    }
    running.stepped.report(report);
    running.met.report(report);
}

impl Running {
    /// Compares one case; the text of a difference.
    fn one(&mut self, random: &mut Random) -> Option<String> {
        let mut run = kernels::run(random);
        if random.once_in(ONE_BEYOND_IN) {
            beyond::put(random, &mut run);
        }
        let bad = random.once_in(ONE_BAD_IN).then(|| random.below(BAD.len()));
        if let Some(which) = bad {
            BAD[which].1(&mut run, random);
        }
        let (wanted, difference) = self.rooms.held(&run, random);
        self.refused[-wanted.given as usize] += 1;
        if let (Some(which), -1) = (bad, wanted.given) {
            self.bad[which] += 1;
        }
        if wanted.given != -1 {
            self.stepped.count(&run.code, &wanted.records, &wanted.answer);
            self.met.count(&run, &wanted);
        }
        difference
    }
}

pub fn plain(run: &Run) -> Left {
    let [mut registers, mut marks, mut records, mut answer] =
        [&run.registers, &run.marks, &run.records, &run.answer].map(Vec::clone);
    let given = calls::run(Call {
        code: &run.code,
        registers: &mut registers,
        marks: &mut marks,
        uniforms: &run.uniforms,
        specials: &run.specials,
        start: run.start,
        mask: run.mask,
        budget: run.budget,
        records: &mut records,
        answer: &mut answer,
    });
    Left { given, registers, marks, records, answer }
}

impl Rooms {
    pub fn new() -> Rooms {
        let (read, write) = (Access::ReadOnly, Access::Writable);
        Rooms {
            code: Guarded::new(8200, read),
            registers: Guarded::new(129 * 128, write),
            marks: Guarded::new(MOST_MARKS, write),
            uniforms: Guarded::new(257 * 4, read),
            specials: Guarded::new(257 * 128, read),
            records: Guarded::new(16 * 4097 + 64, write),
            answer: Guarded::new(64, write),
        }
    }

    /// What the plain program leaves of a run, and the text of a difference where the exported one leaves something else.
    pub fn held(&mut self, run: &Run, random: &mut Random) -> (Left, Option<String>) {
        let wanted = plain(run);
        let left = self.exported(run, random);
        let intact = self.intact();
        let difference = (left != wanted || !intact).then(|| told(run, &wanted, &left, intact));
        (wanted, difference)
    }

    fn all(&mut self) -> [&mut Guarded; 7] {
        let Rooms { code, registers, marks, uniforms, specials, records, answer } = self;
        [code, registers, marks, uniforms, specials, records, answer]
    }

    pub fn intact(&mut self) -> bool {
        self.all().iter().all(|room| room.intact())
    }

    pub fn exported(&mut self, run: &Run, random: &mut Random) -> Left {
        let lent = [&run.code, &run.registers, &run.marks, &run.uniforms, &run.specials, &run.records, &run.answer];
        for (room, bytes) in self.all().into_iter().zip(lent) {
            room.put(bytes, random.bit() == 1);
        }
        let given = exported::run(Call {
            code: self.code.lent(),
            registers: self.registers.lent_mut(),
            marks: self.marks.lent_mut(),
            uniforms: self.uniforms.lent(),
            specials: self.specials.lent(),
            start: run.start,
            mask: run.mask,
            budget: run.budget,
            records: self.records.lent_mut(),
            answer: self.answer.lent_mut(),
        });
        let [registers, marks, records, answer] =
            [&self.registers, &self.marks, &self.records, &self.answer].map(|room| room.left().to_vec());
        Left { given, registers, marks, records, answer }
    }
}

/// Registers, marks and tables are too long to be printed; the seed and the number of the case repeat them.
fn told(run: &Run, want: &Left, got: &Left, intact: bool) -> String {
    let mut text = format!(
        "{} registers, {} marks, {} uniforms, {} specials, {} records, {} answer (bytes); start {}, mask \
         {:08X}, budget {}\n  code {}",
        run.registers.len(),
        run.marks.len(),
        run.uniforms.len(),
        run.specials.len(),
        run.records.len(),
        run.answer.len(),
        run.start,
        run.mask,
        run.budget,
        hex(&run.code),
    );
    for (who, left) in [("plain ", want), ("proved", got)] {
        text += &format!("\n  {who} {:2}, answer {}", left.given, hex(&left.answer));
    }
    let buffers = [
        ("registers", &want.registers, &got.registers),
        ("marks", &want.marks, &got.marks),
        ("records", &want.records, &got.records),
    ];
    for (what, want, got) in buffers {
        if let Some(at) = (0..want.len()).find(|at| want[*at] != got[*at]) {
            let end = (at + 16).min(want.len());
            text += &format!("\n  {what} from byte {at}: plain {}, proved {}", hex(&want[at..end]), hex(&got[at..end]));
        }
    }
    text + if intact { "" } else { "\n  something was written beside the buffers" }
}
