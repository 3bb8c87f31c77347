//! Memory to lend, between two pages that nobody may touch. What is lent lies directly against one of the two; the rest of the room
//! holds a pattern. So a touch outside of what is lent ends the program or is seen.
//!
//! The same memory is mapped twice. Callers get the view between the pages, which for read-only memory can't be written; the test
//! writes and reads through the other.

use std::ffi::c_char;
use std::ops::Range;

const PAGE: usize = 4096;
const NONE: i32 = 0;
const READ: i32 = 1;
const WRITE: i32 = 2;
const SHARED: i32 = 1;
const FIXED: i32 = 0x10;
const PRIVATE_EMPTY: i32 = 0x22;

extern "C" {
    fn memfd_create(name: *const c_char, flags: u32) -> i32;
    fn ftruncate(file: i32, length: i64) -> i32;
    fn mmap(at: *mut u8, length: usize, protection: i32, flags: i32, file: i32, offset: i64) -> *mut u8;
}

#[derive(Clone, Copy, PartialEq, Eq)]
pub enum Access {
    ReadOnly,
    Writable,
}

pub struct Guarded {
    /// The first byte of the room as callers see it, and as the test does.
    lent: *mut u8,
    own: *mut u8,
    at: Range<usize>,
    pattern: Vec<u8>,
    access: Access,
}

impl Guarded {
    /// Room for `most` bytes.
    pub fn new(most: usize, access: Access) -> Guarded {
        let room = most.next_multiple_of(PAGE).max(PAGE);
        let protection = if access == Access::Writable { READ | WRITE } else { READ };
        // fresh mappings; the last is laid over the middle of the one before, whose first and last page stay untouchable
        let (lent, own) = unsafe {
            let file = memfd_create(c"lent".as_ptr(), 0);
            assert!(file >= 0 && ftruncate(file, room as i64) == 0, "there is memory to lend");
            let own = mapped(mmap(std::ptr::null_mut(), room, READ | WRITE, SHARED, file, 0));
            let guards = mapped(mmap(std::ptr::null_mut(), room + 2 * PAGE, NONE, PRIVATE_EMPTY, -1, 0));
            (mapped(mmap(guards.add(PAGE), room, protection, SHARED | FIXED, file, 0)), own)
        };
        let pattern: Vec<u8> = (0..room).map(|k| (k * 167 + 13) as u8).collect();
        let mut guarded = Guarded { lent, own, at: 0..0, pattern, access };
        let all = guarded.pattern.clone();
        guarded.own_mut().copy_from_slice(&all);
        guarded
    }

    /// Puts `bytes` against the page after the room, or against the one before it.
    pub fn put(&mut self, bytes: &[u8], at_end: bool) {
        let room = self.pattern.len();
        let before = self.at.clone();
        let first = if at_end { room - bytes.len() } else { 0 };
        self.at = first..first + bytes.len();
        let (pattern, own) = (&self.pattern, unsafe { std::slice::from_raw_parts_mut(self.own, room) });
        own[before.clone()].copy_from_slice(&pattern[before]);
        own[self.at.clone()].copy_from_slice(bytes);
    }

    pub fn lent(&self) -> &[u8] {
        unsafe { std::slice::from_raw_parts(self.lent.add(self.at.start), self.at.len()) }
    }

    pub fn lent_mut(&mut self) -> &mut [u8] {
        assert!(self.access == Access::Writable);
        unsafe { std::slice::from_raw_parts_mut(self.lent.add(self.at.start), self.at.len()) }
    }

    /// What stands now where the bytes were put.
    pub fn left(&self) -> &[u8] {
        &self.own()[self.at.clone()]
    }

    /// Whether everything beside what was lent is as it was.
    pub fn intact(&self) -> bool {
        let (own, pattern) = (self.own(), &self.pattern);
        own[..self.at.start] == pattern[..self.at.start] && own[self.at.end..] == pattern[self.at.end..]
    }

    fn own(&self) -> &[u8] {
        unsafe { std::slice::from_raw_parts(self.own, self.pattern.len()) }
    }

    fn own_mut(&mut self) -> &mut [u8] {
        unsafe { std::slice::from_raw_parts_mut(self.own, self.pattern.len()) }
    }
}

/// mmap answers -1 where it fails.
fn mapped(at: *mut u8) -> *mut u8 {
    assert!(at as isize != -1, "the memory is mapped");
    at
}
