//! Blocks that are entered at two addresses of the same four bytes: what is free in one instruction spells another that begins two
//! bytes later, and the two are stepped in turns.

use crate::assemble::Code;
use crate::blocks::Blocks;
use crate::instructions::{any_form, good, Limits};
use crate::plain::find::{Form, Name, FORMS};
use crate::random::Random;
use crate::refused::refusal;

impl Blocks {
    /// A mov32 with a jump in its immediate and its free bits. The jump is a block of its own.
    pub fn jump_inside(&mut self, random: &mut Random, at: usize) {
        let mut jump = Code::default();
        jump.jmp_exec_any(0);
        let outer = around(random, &jump.0, self.limits).expect("room for a jump");
        self.enter(at + 2);
        self.exit(at + 2);
        self.enter(at);
        let end = self.put(at, &outer);
        self.leave(random, end);
    }

    /// Two movs, the second with a jump inside, and between their starts a third mov that goes on with this jump.
    ///
    /// ```text
    /// at     mov32 ..........  mov32 ....................  what leaves the block
    /// at + 2       mov16 ..............  jump ............
    /// ```
    pub fn move_inside(&mut self, random: &mut Random, at: usize) {
        let mut jump = Code::default();
        jump.jmp_exec_any(0);
        let second = around(random, &jump.0, self.limits).expect("room for a jump");
        let mut inner = good(random, form(Name::Mov16, 6), self.limits);
        inner[4..].copy_from_slice(&second[..2]);
        let mut first = good(random, form(Name::Mov32, 6), self.limits);
        first[2..].copy_from_slice(&inner[..4]);
        self.enter(at + 2);
        self.exit(at + 8);
        self.enter(at);
        self.put(at, &first);
        let end = self.put(at + 6, &second);
        self.leave(random, end);
    }

    /// A mov with any shorter instruction inside; a jump before it goes to the one or to the other, by the mask.
    pub fn either(&mut self, random: &mut Random, at: usize) {
        let outer = loop {
            let form = any_form(random);
            let jumps = matches!(form.name, Name::JmpExecAny | Name::JmpExecNone);
            if form.length < 8 && !jumps && (form.name != Name::GetSr || self.limits.specials > 0) {
                let inner = good(random, form, self.limits);
                if let Some(outer) = around(random, &inner, self.limits) {
                    break outer;
                }
            }
        };
        let mut jump = Code::default();
        if random.bit() == 1 {
            jump.jmp_exec_any(8);
        } else {
            let none = jump.jmp_exec_none();
            jump.0[none + 2] = 8;
        }
        self.enter(at - 6);
        self.put(at - 6, &jump.0);
        let end = self.put(at, &outer);
        self.leave(random, end);
    }
}

/// A mov within the limits that has `inner`, of four or six bytes, behind its first two bytes; none if it can't be found.
pub fn around(random: &mut Random, inner: &[u8], limits: Limits) -> Option<Vec<u8>> {
    let outer = match (inner.len(), random.bit()) {
        (4, 0) => form(Name::Mov32, 6),
        (4, _) => form(Name::Mov16, 6),
        (6, _) => form(Name::Mov32, 8),
        _ => return None,
    };
    let mut tries = (0..8).map(|_| {
        let mut bytes = good(random, outer, limits);
        bytes[2..].copy_from_slice(inner);
        bytes
    });
    tries.find(|bytes| refusal(bytes, limits).is_none())
}

fn form(name: Name, length: usize) -> &'static Form {
    FORMS.iter().find(|form| form.name == name && form.length == length).expect("a form of this length")
}
