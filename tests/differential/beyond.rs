//! An instruction that names a register which is not lent, and reads a marked half: 5, and not 10.

use crate::halves::is_mask;
use crate::instructions::{encoded, fields, Limits};
use crate::kernels::Run;
use crate::plain::find::{Form, FORMS};
use crate::plain::form::{has_destination, sources, Operand};
use crate::random::Random;

/// Puts one where the run starts, if there is room.
pub fn put(random: &mut Random, run: &mut Run) {
    let registers = run.registers.len() / 128;
    let room = run.code.len() - run.start;
    let forms: Vec<&Form> = FORMS.iter().filter(|form| sources(form.name) > 1 && form.length <= room).collect();
    if registers == 128 || forms.is_empty() {
        return;
    }
    let form = random.pick(&forms);
    let mut drawn = fields(random, form, Limits { registers, specials: 0, discards: 3 });
    let lent = random.below(registers);
    let beyond = registers + random.below(128 - registers);
    let register = |number: usize| Operand { kind: 2, hint: 0, number: number as u16 };
    drawn.sources[0] = register(lent);
    if has_destination(form.name) && random.bit() == 1 {
        drawn.d = register(beyond);
    } else {
        drawn.sources[1] = register(beyond);
    }
    run.code[run.start..][..form.length].copy_from_slice(&encoded(&drawn));
    let marked = if is_mask(&drawn) { 0 } else { 64 * lent };
    run.marks[marked..marked + 32].fill_with(|| random.pick(&[1, 2, 255]));
    run.mask |= 1 << random.below(32);
}
