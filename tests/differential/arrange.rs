//! Calls of the run that are badly arranged, one for each way in which a size, the budget or the start breaks 01's: refusal 1.

use crate::kernels::Run;
use crate::random::Random;

/// The most marks that are lent: far more than any run takes.
pub const MOST_MARKS: usize = 65_536;

type Spoil = fn(&mut Run, &mut Random);

/// Lengths are of bytes; what is 32 words to a register is 128 bytes.
#[rustfmt::skip]
pub const BAD: [(&str, Spoil); 37] = [
    ("code of 8,193 bytes or a few more", |run, random| run.code.resize(8193 + random.below(8), 0x62)),
    ("no registers", |run, _| { run.registers.clear(); half_as_many_marks(run) }),
    ("129 registers", |run, _| { run.registers.resize(129 * 128, 0); half_as_many_marks(run) }),
    ("a word of registers too few", |run, _| { shorten(&mut run.registers, 4); half_as_many_marks(run) }),
    ("a word of registers too many", |run, _| { lengthen(&mut run.registers, 4); half_as_many_marks(run) }),
    ("registers cut by 1 to 3 bytes", |run, random| shorten(&mut run.registers, 1 + random.below(3))),
    ("registers longer by 1 to 3 bytes", |run, random| lengthen(&mut run.registers, 1 + random.below(3))),
    ("registers cut by 2 bytes, marks by 1", |run, _| { shorten(&mut run.registers, 2); half_as_many_marks(run) }),
    ("no marks", |run, _| run.marks.clear()),
    ("a mark too few", |run, _| shorten(&mut run.marks, 1)),
    ("a mark too many", |run, _| lengthen(&mut run.marks, 1)),
    ("the marks of a register too few", |run, _| shorten(&mut run.marks, 64)),
    ("the marks of a register too many", |run, _| lengthen(&mut run.marks, 64)),
    ("half of the marks, or all twice", |run, random| { let marks = run.marks.len(); run.marks.resize(random.pick(&[marks / 2, 2 * marks]), 0) }),
    ("marks of any other length", |run, random| { let marks = run.marks.len(); run.marks.resize(other(random, marks), 3) }),
    ("no uniforms", |run, _| run.uniforms.clear()),
    ("255 uniforms", |run, _| shorten(&mut run.uniforms, 4)),
    ("257 uniforms", |run, _| lengthen(&mut run.uniforms, 4)),
    ("uniforms cut by 1 to 3 bytes", |run, random| shorten(&mut run.uniforms, 1 + random.below(3))),
    ("uniforms longer by 1 to 3 bytes", |run, random| lengthen(&mut run.uniforms, 1 + random.below(3))),
    ("257 special registers", |run, _| run.specials.resize(257 * 128, 0)),
    ("a word of special registers too few", |run, _| { run.specials.resize(128, 7); shorten(&mut run.specials, 4) }),
    ("a word of special registers too many", |run, _| lengthen(&mut run.specials, 4)),
    ("special registers longer by 1 to 3 bytes", |run, random| lengthen(&mut run.specials, 1 + random.below(3))),
    ("budget 0", |run, _| run.budget = 0),
    ("budget 4,097", |run, _| { run.budget = 4097; run.records.resize(16 * 4097, 9) }),
    ("a budget past 32 bits", |run, random| run.budget |= random.pick(&[1 << 32, 1 << 60, 1 << 63])),
    ("the largest budget", |run, _| run.budget = usize::MAX),
    ("odd start", |run, _| { run.code.resize(64, 0x62); run.start = 3 }),
    ("start past the end by 1", |run, _| run.start = run.code.len() + 1),
    ("start past the end by 2", |run, _| run.start = run.code.len() + 2),
    ("a start past 32 bits", |run, random| run.start |= random.pick(&[1 << 32, 1 << 63])),
    ("the largest starts", |run, random| run.start = usize::MAX - random.below(2)),
    ("record room a byte short", |run, _| run.records.truncate(16 * run.budget - 1)),
    ("no record room", |run, _| run.records.clear()),
    ("answer of 23 bytes", |run, _| run.answer.truncate(23)),
    ("no answer, or a short one", |run, random| run.answer.truncate(random.below(23))),
];

/// Marks that are as many as the registers' bytes say, so that these alone are wrong.
fn half_as_many_marks(run: &mut Run) {
    run.marks.resize(run.registers.len() / 2, 0);
}

/// A length up to the longest that is lent here, or that itself.
fn other(random: &mut Random, right: usize) -> usize {
    let length = if random.bit() == 1 { MOST_MARKS } else { random.below(MOST_MARKS) };
    if length == right {
        length - 1
    } else {
        length
    }
}

fn shorten(bytes: &mut Vec<u8>, by: usize) {
    bytes.truncate(bytes.len() - by);
}

fn lengthen(bytes: &mut Vec<u8>, by: usize) {
    bytes.resize(bytes.len() + by, 0xD2);
}
