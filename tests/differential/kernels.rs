//! Random runs: kernels of one to hundreds of instructions with branches and loops, and what is lent to them.

use crate::halves::Row;
use crate::instructions::{any_bytes, any_form, good, Limits, ANY};
use crate::marks::marks_of;
use crate::plain::find::{Form, Name, FORMS};
use crate::random::Random;

pub const MOST_CODE: usize = 8192;

/// What is lent to a run, and the numbers of its call.
pub struct Run {
    pub code: Vec<u8>,
    pub registers: Vec<u8>,
    pub marks: Vec<u8>,
    pub uniforms: Vec<u8>,
    pub specials: Vec<u8>,
    pub start: usize,
    pub mask: u32,
    pub budget: usize,
    pub records: Vec<u8>,
    pub answer: Vec<u8>,
}

/// The code of a kernel, the addresses of its instructions, which of them are jumps, and what they have discarded.
struct Kernel {
    code: Vec<u8>,
    starts: Vec<usize>,
    jumps: Vec<usize>,
    row: Row,
}

/// A run whose sizes are as 01 has them.
pub fn run(random: &mut Random) -> Run {
    let registers = match random.below(3) {
        0 => random.pick(&[1, 2, 3, 33, 34, 64, 127, 128]),
        1 => 1 + random.below(12),
        _ => 1 + random.below(128),
    };
    let specials = if random.bit() == 1 { random.pick(&[0, 1, 5, 6, 69, 70, 255, 256]) } else { random.below(257) };
    let discards = random.pick(&[0, 0, 0, 2, 4, 20]);
    let kernel = kernel(random, Limits { registers, specials, discards });
    let budget = match random.below(4) {
        0 => random.pick(&[1, 2, 4095, 4096]),
        1 => 1 + random.below(4096),
        _ => few(random, 12),
    };
    let spare = if random.bit() == 1 { 0 } else { random.below(49) };
    let answer = if random.bit() == 1 { 24 } else { 24 + random.below(9) };
    let mask = mask(random);
    Run {
        start: start(random, &kernel),
        registers: registers_of(random, registers),
        marks: marks_of(random, registers, mask),
        uniforms: words(random, 256),
        specials: words(random, 32 * specials),
        mask,
        budget,
        records: random.bytes(16 * budget + spare),
        answer: random.bytes(answer),
        code: kernel.code,
    }
}

fn kernel(random: &mut Random, limits: Limits) -> Kernel {
    let mut kernel = Kernel { code: Vec::new(), starts: Vec::new(), jumps: Vec::new(), row: Row::new() };
    if random.once_in(40) {
        kernel.fill(random, limits);
    } else {
        for _ in 0..few(random, 10) {
            if kernel.code.len() + 8 <= MOST_CODE {
                let form = chosen(random, limits);
                kernel.add(random, form, limits);
            }
        }
    }
    kernel.land(random);
    if random.once_in(3) {
        kernel.spoil(random);
    }
    kernel
}

/// A number from 1 to two to the `most`, small ones as often as large ones.
pub fn few(random: &mut Random, most: usize) -> usize {
    let bits = random.below(most + 1);
    1 + random.below(1 << bits)
}

/// A form for the next instruction: mostly data, a tenth jumps, a fifth mask instructions and half of these pop_exec.
fn chosen(random: &mut Random, limits: Limits) -> &'static Form {
    let class = random.below(20);
    let wanted = |form: &Form| match form.name {
        Name::JmpExecAny | Name::JmpExecNone => class < 2,
        Name::PopExec => (2..4).contains(&class),
        Name::IfIcmp | Name::WhileIcmp | Name::ElseIcmp => (4..6).contains(&class),
        Name::GetSr => class >= 6 && limits.specials > 0,
        _ => class >= 6,
    };
    let forms: Vec<&Form> = FORMS.iter().filter(|form| wanted(form)).collect();
    random.pick(&forms)
}

impl Kernel {
    fn add(&mut self, random: &mut Random, form: &Form, limits: Limits) {
        if matches!(form.name, Name::JmpExecAny | Name::JmpExecNone) {
            self.jumps.push(self.starts.len());
        }
        self.starts.push(self.code.len());
        self.code.extend(self.row.next(random, form, limits));
    }

    /// Exactly as much code as is allowed.
    fn fill(&mut self, random: &mut Random, limits: Limits) {
        while self.code.len() < MOST_CODE {
            let rest = MOST_CODE - self.code.len();
            let form = chosen(random, limits);
            // no instruction has two bytes, so two may not be what is left
            if form.length <= rest && rest - form.length != 2 {
                self.add(random, form, limits);
            }
        }
    }

    /// Gives each jump a target: mostly an instruction not far away or the end, sometimes anything.
    fn land(&mut self, random: &mut Random) {
        for &jump in &self.jumps {
            let last = self.starts.len();
            let back = if random.once_in(3) { 16 } else { 0 };
            let near = (jump + 1 + random.below(20)).saturating_sub(back).min(last);
            let target = match random.below(150) {
                0 => random.below(self.code.len() + 40) as i64 - 20,
                1 => random.word() as i32 as i64,
                2 => self.code.len() as i64 + random.below(4) as i64,
                _ => self.starts.get(near).copied().unwrap_or(self.code.len()) as i64,
            };
            let at = self.starts[jump];
            self.code[at + 2..at + 6].copy_from_slice(&((target - at as i64) as i32).to_le_bytes());
        }
    }

    /// Puts something bad in one place, or cuts the code, at an odd length too, or adds to it.
    fn spoil(&mut self, random: &mut Random) {
        let bad = match random.below(8) {
            0 => return self.code.truncate(self.code.len() - 1 - random.below(4)),
            1 => {
                return self
                    .code
                    .extend(random.number().to_le_bytes().iter().take((MOST_CODE - self.code.len()).min(3)))
            }
            2 | 3 => any_bytes(random),
            4 | 5 => {
                let form = any_form(random);
                good(random, form, ANY)
            }
            // a special register that is often not lent
            _ => {
                FORMS.iter().filter(|form| form.name == Name::GetSr).flat_map(|form| good(random, form, ANY)).collect()
            }
        };
        let at = random.pick(&self.starts);
        for (byte, bad) in self.code[at..].iter_mut().zip(bad) {
            *byte = bad;
        }
    }
}

fn start(random: &mut Random, kernel: &Kernel) -> usize {
    let length = kernel.code.len();
    match random.below(10) {
        0 => length & !1,
        1 => random.below(length + 1) & !1,
        2 | 3 => random.pick(&kernel.starts).min(length & !1),
        _ => 0,
    }
}

pub fn mask(random: &mut Random) -> u32 {
    match random.below(8) {
        0 => 0,
        1 => 1 << random.below(32),
        2 | 3 => random.number() as u32,
        _ => u32::MAX,
    }
}

pub fn words(random: &mut Random, count: usize) -> Vec<u8> {
    (0..count).flat_map(|_| random.word().to_le_bytes()).collect()
}

/// Any words; r0l of most runs is 0 or small, as kernels with branches have it.
pub fn registers_of(random: &mut Random, count: usize) -> Vec<u8> {
    let mut bytes = words(random, 32 * count);
    let small = random.below(4);
    for t in 0..32 {
        let r0l = match small {
            0 | 1 => 0,
            2 => random.pick(&[0, 0, 1, 1, 2, 3, 0xFFFF]),
            _ => continue,
        };
        bytes[4 * t..4 * t + 2].copy_from_slice(&(r0l as u16).to_le_bytes());
    }
    bytes
}
