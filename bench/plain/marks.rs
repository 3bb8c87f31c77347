//! The marks: a byte for each register half and thread, 0 where it is clear. A source with discard marks its halves, a write clears them.
//!
//! Threads are chosen by bytes too, so that no loop over them has a branch.

use super::lanes::State;
use super::operand::{Destination, Hint, Src};
use super::THREADS;

/// The marks of a half, or of several halves joined: not 0 where a thread has one.
pub type Marks = [u8; THREADS];

/// A choice of threads: all ones where a thread is chosen, 0 where it is not.
pub type Chosen = [u8; THREADS];

const CLEAR: u8 = 0;
const MARKED: u8 = 1;

impl State<'_> {
    /// The marks of all halves of the sources, joined.
    #[inline]
    pub fn marks_of(&self, sources: impl IntoIterator<Item = Src>) -> Marks {
        let mut joined = [CLEAR; THREADS];
        for source in sources {
            for marks in &self.marks[source.from.halves()] {
                for t in 0..THREADS {
                    joined[t] |= marks[t];
                }
            }
        }
        joined
    }

    /// Marks the halves of a source with discard, in every thread.
    #[inline]
    pub fn discard(&mut self, source: Src) {
        if source.hint == Hint::Discard {
            self.marks[source.from.halves()].fill([MARKED; THREADS]);
        }
    }

    /// Clears the marks of a destination's halves in the active threads.
    #[inline]
    pub fn clear(&mut self, to: Destination) {
        let active = &self.active;
        for marks in &mut self.marks[to.halves()] {
            for t in 0..THREADS {
                marks[t] &= !active[t];
            }
        }
    }

    /// Clears the marks of r0l in every thread.
    #[inline]
    pub fn clear_r0l(&mut self) {
        self.marks[0] = [CLEAR; THREADS];
    }
}

/// The threads that are set in `mask`.
#[inline]
pub fn set_in(mask: u32) -> Chosen {
    std::array::from_fn(|t| if mask & 1 << t != 0 { 0xFF } else { 0 })
}

/// Whether any thread has a mark.
#[inline]
pub fn any(marks: &Marks) -> bool {
    marks.iter().fold(CLEAR, |all, mark| all | mark) != CLEAR
}

/// Whether a thread that is chosen has a mark.
#[inline]
pub fn any_of(marks: &Marks, chosen: &Chosen) -> bool {
    let mut all = CLEAR;
    for t in 0..THREADS {
        all |= marks[t] & chosen[t];
    }
    all != CLEAR
}
