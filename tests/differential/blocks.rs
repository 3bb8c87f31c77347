//! Kernels of blocks that jump to one another, round and round. The blocks begin at addresses which a table of what was decoded can
//! mix up: a multiple of 1,024 bytes apart, or two bytes apart within the same four.

use crate::assemble::{Cc, Code, Icmp, Op};
use crate::instructions::{good, Limits};
use crate::kernels::MOST_CODE;
use crate::plain::find::{Form, Name, FORMS};
use crate::random::Random;

/// Addresses so far apart share a slot of the table of decoded instructions, as the run has it.
pub const LAYER: usize = 1024;
pub const LAYERS: usize = MOST_CODE / LAYER;
/// From one block to the next in a layer; no block is longer.
const STRIDE: usize = 128;
pub const COLUMNS: usize = LAYER / STRIDE;

/// Code with blocks in it, random bytes between them. Each entry has the jump by which its block is left while a thread is active.
pub struct Blocks {
    pub code: Vec<u8>,
    pub limits: Limits,
    pub entries: Vec<usize>,
    exits: Vec<usize>,
    /// The jumps by which blocks are left where no thread is active, each with the block's place among the entries.
    others: Vec<(usize, usize)>,
    /// The end of what was laid out.
    end: usize,
    pub turning: Turning,
}

/// How often blocks change the mask before they are left; always means that each turns it round.
#[derive(Clone, Copy, PartialEq, Eq)]
pub enum Turning {
    Never,
    Sometimes,
    Always,
}

impl Blocks {
    pub fn new(random: &mut Random, limits: Limits) -> Blocks {
        let (entries, exits, others) = (Vec::new(), Vec::new(), Vec::new());
        Blocks { code: random.bytes(MOST_CODE), limits, entries, exits, others, end: 0, turning: Turning::Sometimes }
    }

    /// Lays bytes out; answers where they end.
    pub fn put(&mut self, at: usize, bytes: &[u8]) -> usize {
        let end = at + bytes.len();
        self.code[at..end].copy_from_slice(bytes);
        self.end = self.end.max(end);
        end
    }

    /// A block of a few data instructions.
    pub fn plain(&mut self, random: &mut Random, at: usize) {
        self.enter(at);
        let mut end = at;
        for _ in 0..1 + random.below(6) {
            let form = data(random, self.limits);
            end = self.put(end, &good(random, form, self.limits));
        }
        self.leave(random, end);
    }

    pub fn enter(&mut self, at: usize) {
        self.entries.push(at);
    }

    /// A jump by which the last entry's block is left while a thread is active.
    pub fn exit(&mut self, at: usize) {
        self.exits.push(at);
    }

    /// The end of a block: it may change the mask, and is left whatever the mask is.
    pub fn leave(&mut self, random: &mut Random, at: usize) {
        let turns = self.turning == Turning::Always || self.turning == Turning::Sometimes && random.once_in(3);
        let at = if turns { self.turn(random, at) } else { at };
        let mut jumps = Code::default();
        jumps.jmp_exec_any(0);
        jumps.jmp_exec_none();
        if random.bit() == 1 {
            jumps.0.rotate_left(6);
        }
        let none = if jumps.0[0] == 0 { 6 } else { 0 };
        self.put(at, &jumps.0);
        self.exit(at + 6 - none);
        self.others.push((at + none, self.exits.len() - 1));
    }

    /// Mostly an else that is taken: threads with 0 in r0l are made inactive by it, those with 1 active.
    fn turn(&mut self, random: &mut Random, at: usize) -> usize {
        let mut code = Code::default();
        let which = if self.turning == Turning::Always { 9 } else { random.below(10) };
        match which {
            0 | 1 => code.pop_exec(random.below(4) as u64),
            2 => code.icmp(Icmp::If, 1, Op::Reg(1), Cc::Less, Op::Reg(2)),
            _ => code.icmp(Icmp::Else, 1, Op::Imm(0), Cc::Equal, Op::Imm(0)),
        }
        self.put(at, &code.0)
    }

    /// Lets the blocks follow one another in a random ring. Where no thread is active `last` follows if there is one; otherwise mostly
    /// the next of the ring, or any.
    pub fn link(&mut self, random: &mut Random, last: Option<usize>) {
        let order = shuffled(random, self.entries.len());
        let mut next = self.entries.clone();
        for (k, &block) in order.iter().enumerate() {
            next[block] = self.entries[order[(k + 1) % order.len()]];
            self.land(self.exits[block], next[block]);
        }
        for (jump, block) in self.others.clone() {
            let target = if random.once_in(3) { random.pick(&self.entries) } else { next[block] };
            self.land(jump, last.unwrap_or(target));
        }
    }

    /// Gives a jump its target.
    pub fn land(&mut self, jump: usize, target: usize) {
        let off = target as i32 - jump as i32;
        self.code[jump + 2..jump + 6].copy_from_slice(&off.to_le_bytes());
    }

    /// Cuts the code somewhere behind the last block, at an odd length too.
    pub fn cut(&mut self, random: &mut Random) {
        let length = self.end + random.below(MOST_CODE - self.end + 1);
        self.code.truncate(if random.once_in(4) { MOST_CODE } else { length });
    }
}

/// A place in a layer for each column, such that the places of one column share a slot.
pub fn places(random: &mut Random) -> [usize; COLUMNS] {
    std::array::from_fn(|column| STRIDE * column + 4 * (2 + random.below(6)))
}

/// Some of the layers, at least two, in any order.
pub fn layers(random: &mut Random) -> Vec<usize> {
    let mut all = shuffled(random, LAYERS);
    all.truncate(2 + random.below(LAYERS - 1));
    all
}

/// The numbers below `end` in any order.
pub fn shuffled(random: &mut Random, end: usize) -> Vec<usize> {
    let mut all: Vec<usize> = (0..end).collect();
    for k in (1..end).rev() {
        all.swap(k, random.below(k + 1));
    }
    all
}

/// The form of a data instruction within the limits.
pub fn data(random: &mut Random, limits: Limits) -> &'static Form {
    loop {
        let form = &FORMS[random.below(FORMS.len())];
        if is_data(form) && (form.name != Name::GetSr || limits.specials > 0) {
            return form;
        }
    }
}

fn is_data(form: &Form) -> bool {
    use Name::{ElseIcmp, IfIcmp, JmpExecAny, JmpExecNone, PopExec, WhileIcmp};
    !matches!(form.name, JmpExecAny | JmpExecNone | PopExec | IfIcmp | WhileIcmp | ElseIcmp)
}
