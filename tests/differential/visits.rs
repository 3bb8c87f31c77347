//! What a run came back to, from its records: the addresses of its steps, put into slots as the run puts what it decoded.

use crate::blocks::{LAYER, LAYERS};
use crate::kernels::Run;
use crate::plain::decode::decode;
use crate::plain::form::Fields;
use std::collections::HashMap;

const SLOT: usize = 4;

/// How often a run came back, and how.
#[derive(Default)]
pub struct Visits {
    pub steps: u64,
    /// Steps at the address that had their slot last.
    pub again: u64,
    /// Steps at an address of before, whose slot another address had in between: one in the same four bytes, or one about so many
    /// times 1,024 bytes away.
    pub near: u64,
    pub far: [u64; LAYERS],
    /// Jumps that were taken and had not been the last time, and the other way round.
    pub turned: [u64; 2],
    /// Where the last address was refused: what its slot had.
    pub refused: Option<Held>,
    /// Pairs of instructions, one after the other, by their kinds in the byte form.
    pub pairs: Vec<[usize; 2]>,
}

/// What the slot of a refused instruction had: nothing, the instruction itself, another that was stepped once, or another that was
/// stepped again while the slot had it, far away or in the same four bytes.
#[derive(Clone, Copy, PartialEq, Eq)]
pub enum Held {
    Nothing,
    Itself,
    Once,
    Far,
    Near,
}

/// A slot: the address that had it last, and whether it was stepped again there.
#[derive(Clone, Copy)]
struct Slot {
    address: usize,
    again: bool,
}

impl Visits {
    pub fn of(run: &Run, records: &[u8], answer: &[u8]) -> Visits {
        let mut visits = Visits::default();
        let mut slots = [None; LAYER / SLOT];
        let mut classes = HashMap::new();
        let mut last = None;
        let number = |at: usize| u32::from_le_bytes(answer[at..at + 4].try_into().expect("four bytes")) as usize;
        for record in records.chunks(16).take(number(8)) {
            let address = u16::from_le_bytes([record[0], record[1]]) as usize;
            let before = classes.insert(address, record[3]);
            visits.step(&mut slots[address / SLOT % slots.len()], address, before.is_some());
            visits.turned[0] += (before == Some(3) && record[3] == 4) as u64;
            visits.turned[1] += (before == Some(4) && record[3] == 3) as u64;
            let instruction = decode(&run.code[address..]).expect("an instruction that was stepped");
            let kind = Fields::of(&instruction).kind as usize;
            visits.pairs.extend(last.replace(kind).map(|last| [last, kind]));
        }
        if number(4) > 1 {
            let address = number(16);
            visits.refused = Some(held(slots[address / SLOT % slots.len()], address));
        }
        visits
    }

    pub fn far(&self) -> u64 {
        self.far.iter().sum()
    }

    fn step(&mut self, slot: &mut Option<Slot>, address: usize, before: bool) {
        self.steps += 1;
        match slot {
            Some(slot) if slot.address == address => {
                self.again += 1;
                slot.again = true;
                return;
            }
            Some(slot) if before && slot.address / SLOT == address / SLOT => self.near += 1,
            Some(slot) if before => self.far[(slot.address.abs_diff(address) + SLOT) / LAYER] += 1,
            _ => {}
        }
        *slot = Some(Slot { address, again: false });
    }
}

fn held(slot: Option<Slot>, address: usize) -> Held {
    match slot {
        None => Held::Nothing,
        Some(slot) if slot.address == address => Held::Itself,
        Some(slot) if !slot.again => Held::Once,
        Some(slot) if slot.address / SLOT == address / SLOT => Held::Near,
        Some(_) => Held::Far,
    }
}
