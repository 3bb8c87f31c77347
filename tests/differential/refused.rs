//! Kernels that go round a few times and are then refused, at an address whose slot has held another instruction.

use crate::assemble::{Cc, Code, Icmp, Op, Sum, Term};
use crate::blocks::{places, Blocks, Turning, LAYER, LAYERS};
use crate::instructions::{any_form, good, shaped, Limits, ANY};
use crate::overlaps::around;
use crate::plain::find::{Name, FORMS};
use crate::plain::{self, Ending};
use crate::random::Random;

/// Blocks in a ring that is left after a few turns, to an instruction which is refused with `number`. The register behind those of
/// the limits counts the turns: it must be lent too, and be 0 at first. So must the next, with its halves marked.
pub fn then_refused(random: &mut Random, number: u8, limits: Limits) -> Blocks {
    let mut blocks = Blocks::new(random, limits);
    blocks.turning = Turning::Never;
    let places = places(random);
    for place in &places[2..2 + random.below(3)] {
        let at = below_the_last(random) + place;
        blocks.plain(random, at);
    }
    let at = below_the_last(random) + places[0];
    let near = number > 2 && random.bit() == 1;
    let (last, bytes) =
        if near { inside(random, &mut blocks, at, number) } else { beside(random, &mut blocks, at, number) };
    let counter = below_the_last(random) + places[1];
    let astray = number == 7 && random.once_in(3);
    count_turns(random, &mut blocks, counter, astray.then_some(&bytes));
    blocks.link(random, Some(last));
    if number == 2 {
        blocks.code.truncate(last + bytes.len());
    } else {
        blocks.cut(random);
    }
    blocks
}

/// The first address of a layer that is not the last.
fn below_the_last(random: &mut Random) -> usize {
    LAYER * random.below(LAYERS - 1)
}

/// The limits, the register that counts and the one that is marked.
fn lent(limits: Limits) -> Limits {
    Limits { registers: limits.registers + 2, ..limits }
}

/// A block, and in another layer at its place an instruction that is refused: its address and its bytes.
fn beside(random: &mut Random, blocks: &mut Blocks, at: usize, number: u8) -> (usize, Vec<u8>) {
    let first = at + 2 * random.below(2);
    blocks.plain(random, first);
    let bytes = refused(random, number, lent(blocks.limits));
    let last = LAYER * (LAYERS - 1) + at % LAYER + 2 * random.below(2);
    blocks.put(last, &bytes);
    (last, bytes)
}

/// A block that begins with a mov, and in this an instruction that is refused: its address and its bytes.
fn inside(random: &mut Random, blocks: &mut Blocks, at: usize, number: u8) -> (usize, Vec<u8>) {
    loop {
        let bytes = refused(random, number, lent(blocks.limits));
        if let Some(outer) = around(random, &bytes, blocks.limits) {
            blocks.enter(at);
            let end = blocks.put(at, &outer);
            blocks.leave(random, end);
            return (at + 2, bytes);
        }
    }
}

/// A block that makes all threads inactive after a few turns, and may then jump astray by itself.
fn count_turns(random: &mut Random, blocks: &mut Blocks, at: usize, astray: Option<&Vec<u8>>) {
    let counter = Op::Reg(blocks.limits.registers as u64);
    let (own, one) = (Term(counter, false), Term(Op::Imm(1), false));
    let mut code = Code::default();
    code.iadd(counter, own, one, Sum::default());
    code.icmp(Icmp::If, 1, counter, Cc::Less, Op::Imm(2 + random.below(5) as u64));
    code.0.extend(astray.into_iter().flatten());
    blocks.enter(at);
    let end = blocks.put(at, &code.0);
    blocks.leave(random, end);
}

/// The number with which a run refuses these bytes at its start, no thread being active and the last register marked.
pub fn refusal(bytes: &[u8], limits: Limits) -> Option<u8> {
    let mut registers = vec![0; 32 * limits.registers];
    let specials = vec![0; 32 * limits.specials];
    let mut marks = vec![0; 64 * limits.registers];
    marks[64 * (limits.registers - 1)..].fill(1);
    let answer = plain::run(bytes, &mut registers, &mut marks, &[0; 256], &specials, 0, 0, 1, &mut [0; 16]);
    match answer.ending {
        Ending::Refused(number) => Some(number),
        _ => None,
    }
}

/// Bytes of an instruction that is refused with a number from 2 to 7, or 10: with 2 they are cut short, with 7 they jump where no thread
/// is active, with 10 they compare the last register where r0l is 1 or 0.
fn refused(random: &mut Random, number: u8, limits: Limits) -> Vec<u8> {
    loop {
        let form = any_form(random);
        let bytes = match number {
            2 => good(random, form, limits)[..random.pick(&[2, 3])].to_vec(),
            3 => random.bytes(6),
            4 => shaped(random, form),
            5 => good(random, form, ANY),
            6 => special(random, limits),
            7 => astray(random),
            _ => comparing(random, limits),
        };
        if refusal(&bytes, limits) == Some(number) {
            return bytes;
        }
    }
}

fn special(random: &mut Random, limits: Limits) -> Vec<u8> {
    let form = FORMS.iter().find(|form| form.name == Name::GetSr).expect("get_sr");
    good(random, form, Limits { specials: 256, ..limits })
}

/// A comparison of the last register, in the threads whose r0l is 1 at most.
fn comparing(random: &mut Random, limits: Limits) -> Vec<u8> {
    let last = limits.registers as u64 - 1;
    let marked = random.pick(&[Op::Lo(last), Op::Hi(last), Op::Reg(last), Op::DiscardReg(last)]);
    let (a, b) = if random.bit() == 1 { (marked, Op::Imm(1)) } else { (Op::Reg(1), marked) };
    let mut code = Code::default();
    code.icmp(Icmp::While, 2 + random.below(2) as u64, a, Cc::Less, b);
    code.0
}

/// A jump to an odd address, or to one that no code has.
fn astray(random: &mut Random) -> Vec<u8> {
    let mut code = Code::default();
    let jump = code.jmp_exec_none();
    let near = random.below(64) as i32;
    let off = random.pick(&[2 * near + 1, -2 * near - 1, 8194 + 2 * near, -8194 - 2 * near, i32::MAX, i32::MIN]);
    code.0[jump + 2..].copy_from_slice(&off.to_le_bytes());
    code.0
}
