//! The kernels that come back to addresses, and what is lent to them.

use crate::blocks::{data, layers, places, shuffled, Blocks, Turning, COLUMNS, LAYER};
use crate::halves::Row;
use crate::instructions::Limits;
use crate::kernels::{few, mask, registers_of, words, Run, MOST_CODE};
use crate::marks::marks_of;
use crate::plain::find::{Form, Name, FORMS};
use crate::random::Random;
use crate::refused;

/// What is lent with a kernel.
fn lent(random: &mut Random, limits: Limits, code: Vec<u8>, start: usize, budget: usize) -> Run {
    let spare = if random.bit() == 1 { 0 } else { random.below(49) };
    let mask = mask(random);
    let clear = vec![0; 64 * limits.registers];
    let marks = if random.once_in(6) { marks_of(random, limits.registers, mask) } else { clear };
    Run {
        code,
        registers: registers_of(random, limits.registers),
        marks,
        uniforms: words(random, 256),
        specials: words(random, 32 * limits.specials),
        start,
        mask,
        budget,
        records: random.bytes(16 * budget + spare),
        answer: random.bytes(24),
    }
}

fn limits(random: &mut Random) -> Limits {
    let registers = if random.bit() == 1 { 3 + random.below(12) } else { 3 + random.below(126) };
    Limits { registers, specials: random.pick(&[0, 1, 8, 70, 256]), discards: discards(random) }
}

/// Mostly none: what a loop discards and does not write ends it at the next turn.
fn discards(random: &mut Random) -> usize {
    random.pick(&[0, 0, 0, 3, 30])
}

/// Instructions that go on with the next, data and mask.
fn body(random: &mut Random, limits: Limits, length: usize) -> Vec<u8> {
    let (mut code, mut row) = (Vec::new(), Row::new());
    while code.len() < length {
        let rest = length - code.len();
        let form = if random.once_in(30) { masking(random) } else { data(random, limits) };
        // no instruction has two bytes, so two may not be what is left
        if form.length <= rest && rest - form.length != 2 {
            code.extend(row.next(random, form, limits));
        }
    }
    code
}

fn masking(random: &mut Random) -> &'static Form {
    use Name::{ElseIcmp, IfIcmp, PopExec, WhileIcmp};
    let masks = |form: &&Form| matches!(form.name, PopExec | IfIcmp | WhileIcmp | ElseIcmp);
    let forms: Vec<&Form> = FORMS.iter().filter(masks).collect();
    random.pick(&forms)
}

/// Code from just over 1,024 bytes to all that is allowed.
pub fn straight(random: &mut Random) -> Run {
    let limits = limits(random);
    let length = if random.once_in(3) { MOST_CODE } else { LAYER + 2 * (2 + random.below(3581)) };
    let code = body(random, limits, length);
    lent(random, limits, code, 0, 4096)
}

/// A loop that is longer than the slots hold, so that each turn takes its slots from the one before.
pub fn long_loop(random: &mut Random) -> Run {
    let limits = limits(random);
    let most = random.pick(&[600, 3570]);
    let length = LAYER + 4 + 2 * random.below(most);
    let mut code = body(random, limits, length);
    for opcode in [0xC000u16, 0xC020] {
        let back = -(code.len() as i32);
        code.extend(opcode.to_le_bytes());
        code.extend(back.to_le_bytes());
    }
    let budget = 4096 - random.below(1000);
    lent(random, limits, code, 0, budget)
}

/// Blocks that share slots; in each column they begin at one place of their layers, or two bytes behind it.
pub fn apart(random: &mut Random) -> Run {
    let limits = limits(random);
    let mut blocks = Blocks::new(random, limits);
    let (layers, places) = (layers(random), places(random));
    for place in &places[..1 + random.below(COLUMNS)] {
        for layer in &layers {
            let at = LAYER * layer + place + 2 * random.below(2);
            blocks.plain(random, at);
        }
    }
    ring(random, blocks)
}

/// A run of blocks that follow one another in a ring.
fn ring(random: &mut Random, mut blocks: Blocks) -> Run {
    blocks.link(random, None);
    blocks.cut(random);
    let start = random.pick(&blocks.entries);
    let budget = 256 + few(random, 11);
    lent(random, blocks.limits, blocks.code, start, budget)
}

/// Blocks that are entered at two addresses of the same four bytes, and share slots with others too.
pub fn overlapping(random: &mut Random) -> Run {
    // a jump back sets high bits where the mov around it has its register's number
    let limits = Limits { registers: 128, specials: random.pick(&[1, 8, 256]), discards: discards(random) };
    let mut blocks = Blocks::new(random, limits);
    let (layers, places) = (layers(random), places(random));
    for place in &places[..1 + random.below(3)] {
        for layer in &layers[..1 + random.below(3).min(layers.len() - 1)] {
            let at = LAYER * layer + place;
            match random.below(7) {
                0 | 1 => blocks.jump_inside(random, at),
                2 | 3 => blocks.move_inside(random, at),
                4 | 5 => blocks.either(random, at),
                _ => blocks.plain(random, at + 2),
            }
        }
    }
    ring(random, blocks)
}

/// Blocks in a ring that is left after a few turns, to an instruction that is refused. Behind the registers of the limits there is the
/// one that counts the turns, and one whose halves are marked.
pub fn then_refused(random: &mut Random) -> Run {
    let limits = Limits { registers: 3 + random.below(123), specials: random.below(200), discards: 0 };
    let number = random.pick(&[2, 3, 4, 5, 6, 7, 10]);
    let blocks = refused::then_refused(random, number, limits);
    let start = random.pick(&blocks.entries);
    let with_both = Limits { registers: limits.registers + 2, ..limits };
    let mut run = lent(random, with_both, blocks.code, start, 512);
    run.mask |= 1 << random.below(32);
    run.registers[128 * limits.registers..].fill(0);
    run.marks.fill(0);
    run.marks[64 * (limits.registers + 1)..].fill_with(|| random.pick(&[1, 2, 255]));
    run
}

/// A few blocks, each of which changes the mask, so that what leaves it is now the one jump and now the other.
pub fn turning(random: &mut Random) -> Run {
    let limits = Limits { registers: 128, ..limits(random) };
    let mut blocks = Blocks::new(random, limits);
    blocks.turning = Turning::Always;
    let places = places(random);
    // an odd number of blocks, of which each turns the mask round, has another mask at every turn
    for place in &places[..random.pick(&[1, 3, 3, 4, 5])] {
        if random.bit() == 1 {
            blocks.plain(random, *place);
        } else {
            blocks.either(random, *place);
        }
    }
    let mut run = ring(random, blocks);
    for r0 in run.registers[..128].chunks_exact_mut(4) {
        r0[..2].fill(0);
    }
    run
}

/// Every instruction four times, in any order. A jump goes to the next, taken or not.
pub fn orders(random: &mut Random) -> Run {
    let limits =
        Limits { registers: 3 + random.below(126), specials: 1 + random.below(256), discards: discards(random) };
    let (mut code, mut row) = (Vec::new(), Row::new());
    for k in shuffled(random, 4 * FORMS.len()) {
        let form = &FORMS[k % FORMS.len()];
        let mut bytes = row.next(random, form, limits);
        if matches!(form.name, Name::JmpExecAny | Name::JmpExecNone) {
            bytes[2..].copy_from_slice(&6i32.to_le_bytes());
        }
        code.extend(bytes);
    }
    let budget = 1 + random.below(200);
    lent(random, limits, code, 0, budget)
}

/// A kernel of another kind that is run for one step, or begun at its end.
pub fn one_step(random: &mut Random) -> Run {
    let mut run = random.pick(&[straight, apart, overlapping, then_refused, orders])(random);
    if random.once_in(3) {
        run.start = run.code.len() & !1;
    } else {
        run.budget = 1;
    }
    run.records.truncate(16 * run.budget + random.below(64));
    run
}
