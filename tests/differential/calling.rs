//! The exported comparison, called in memory between guard pages and held to the plain program: the answer and every byte of the line's
//! buffer.

use crate::guarded::{Access, Guarded};
use crate::plain::calls;
use crate::random::Random;
use crate::report::{both, hex, Report};
use std::ops::Range;
use std::ptr::{null, null_mut};

/// The longest line, and the longest buffer that is tried for it.
pub const LINE: usize = 16;
pub const MOST_LINE: usize = 20;
/// A kernel is shown up to so many bytes.
const MOST_SHOWN: usize = 64;

extern "C" {
    fn reedtassel_compare(
        first: *const u8,
        first_len: usize,
        second: *const u8,
        second_len: usize,
        line: *mut u8,
        line_len: usize,
    ) -> i32;
}

/// Memory that is lent again and again.
pub struct Rooms {
    first: Guarded,
    second: Guarded,
    line: Guarded,
}

impl Rooms {
    /// Room for kernels up to a length.
    pub fn new(most: usize) -> Rooms {
        let [first, second] = [(); 2].map(|_| Guarded::new(most, Access::ReadOnly));
        Rooms { first, second, line: Guarded::new(MOST_LINE, Access::Writable) }
    }

    /// Compares one pair, with room for a line of that length; the text of a difference.
    pub fn held(&mut self, random: &mut Random, first: &[u8], second: &[u8], room: usize) -> Option<String> {
        let before = self.put(random, first, second, room);
        let got = exported(self.first.lent(), self.second.lent(), self.line.lent_mut());
        self.outcome(first, second, &before, got)
    }

    /// Compares two parts of one code, which lie in the same memory.
    pub fn parts_held(
        &mut self,
        random: &mut Random,
        code: &[u8],
        [first, second]: [Range<usize>; 2],
    ) -> Option<String> {
        let before = self.put(random, code, &[], LINE);
        let lent = self.first.lent();
        let got = exported(&lent[first.clone()], &lent[second.clone()], self.line.lent_mut());
        self.outcome(&code[first], &code[second], &before, got)
    }

    /// Puts what is lent against the pages before or after it; answers what stands in the line's buffer.
    fn put(&mut self, random: &mut Random, first: &[u8], second: &[u8], room: usize) -> Vec<u8> {
        self.first.put(first, random.bit() == 1);
        self.second.put(second, random.bit() == 1);
        let line = random.bytes(room);
        self.line.put(&line, random.bit() == 1);
        line
    }

    /// Holds what was answered and left to the plain program.
    fn outcome(&self, first: &[u8], second: &[u8], before: &[u8], got: i32) -> Option<String> {
        let mut wanted = before.to_vec();
        let want = calls::compare(first, second, &mut wanted);
        let left = self.line.left();
        let intact = [&self.first, &self.second, &self.line].iter().all(|room| room.intact());
        if got == want && left == wanted && intact {
            return None;
        }
        let texts = format!("  plain  {}\n  proved {}", text(want, &wanted), text(got, left));
        Some(format!("{}\n{texts}\n{}", shown(first, second), both(before, (want, &wanted), (got, left), intact)))
    }
}

// Every pointer is a slice's own, with its length; the kernels are only read, and the line overlaps none of them.
fn exported(first: &[u8], second: &[u8], line: &mut [u8]) -> i32 {
    let (line, room) = (line.as_mut_ptr(), line.len());
    unsafe { reedtassel_compare(first.as_ptr(), first.len(), second.as_ptr(), second.len(), line, room) }
}

/// The line that was answered, as text.
fn text(answer: i32, left: &[u8]) -> String {
    let length = usize::try_from(answer).unwrap_or(0).min(left.len());
    String::from_utf8_lossy(&left[..length]).into_owned()
}

pub fn shown(first: &[u8], second: &[u8]) -> String {
    let side = |code: &[u8]| match code.get(..MOST_SHOWN) {
        Some(start) => format!("{} bytes, of which the first {}", code.len(), hex(start)),
        None => hex(code),
    };
    format!("\n  first  {}\n  second {}", side(first), side(second))
}

/// NULL where a length is 0: what the call answers and leaves, by the words of the interface.
pub fn nulls(report: &mut Report) {
    const CODE: [u8; 4] = [0x62, 0x04, 0x34, 0x12];
    let (code, none) = ((CODE.as_ptr(), CODE.len()), (null(), 0));
    let long = vec![0x62; 8193];
    let long = (long.as_ptr(), long.len());
    let cases = [
        ("no kernels", none, none, "same"),
        ("no first kernel", none, code, "0000 ended 1"),
        ("no second kernel", code, none, "0000 ended 2"),
        ("no first kernel, a long second", none, long, "0000 refused 1 2"),
        ("no second kernel, a long first", long, none, "0000 refused 1 1"),
        ("two kernels", code, code, "same"),
    ];
    report.compare("compare, NULL where the length is 0", cases.len() as u64, |number| {
        let (what, first, second, want) = cases[number as usize];
        let mut line = [0xA5; LINE];
        // NULL comes with length 0 alone
        let (got, without) = unsafe {
            let got = reedtassel_compare(first.0, first.1, second.0, second.1, line.as_mut_ptr(), LINE);
            (got, reedtassel_compare(first.0, first.1, second.0, second.1, null_mut(), 0))
        };
        let told = || format!("{what}: {got} with {}, and {without} without a line", text(got, &line));
        (text(got, &line) != want || got != want.len() as i32 || without != -1).then(told)
    });
}
