//! Writing of Intel HEX compared: the answer and every byte of the buffer. What was written is read again, which gives the kernel back.

use crate::exported;
use crate::guarded::{Access, Guarded};
use crate::hexgood::of_bytes;
use crate::hexreading::ROOMS;
use crate::hexsaid;
use crate::kernels::few;
use crate::plain::calls;
use crate::plain::hex::MOST_CODE;
use crate::random::Random;
use crate::report::{both, hex, Report};

const GROUP: u64 = 36;
/// The longest kernel that is tried.
const MOST_LENT: usize = 65_540;
/// The longest text.
const MOST_TEXT: usize = 22_540;
/// The first kernels are of each length from 0 on.
const EACH: usize = 300;
/// Kernels up to this length are tried with every room for the text.
const EVERY_ROOM: usize = 36;
const ROW: usize = 16;
const ROOM_KINDS: usize = 6;
/// A kernel is shown up to so many bytes.
const MOST_SHOWN: usize = 64;

#[rustfmt::skip]
const LENGTHS: [usize; 20] = [
    0, 1, 15, 16, 17, 31, 255, 256, 257, 4095, 4096, 4097, 8176, 8177, MOST_CODE - 1, MOST_CODE, MOST_CODE + 1, 16_384, 65_536, MOST_LENT,
];

/// Memory that is lent again and again.
struct Rooms {
    code: Guarded,
    text: Guarded,
}

struct Writing {
    /// For kernels that are not too long, and for the others.
    small: Rooms,
    large: Rooms,
    rooms: [u64; ROOMS.len()],
    /// Without and with room for the text.
    too_long: [u64; 2],
    /// By the data bytes of the last row before the end row, 0 for no such row.
    last_rows: [u64; ROW + 1],
    longest: u64,
}

pub fn compare(report: &mut Report, seed: u64, cases: u64) {
    hexsaid::write_compared(report);
    let mut writing = Writing::new();
    report.compare("hex write, and read again", cases, |number| {
        let random = &mut Random::of_case(seed, GROUP, number);
        let length = if number < EACH as u64 { number as usize } else { length(random) };
        let kind = random.below(ROOM_KINDS);
        writing.one(random, length, kind)
    });
    report.compare("hex write, lengths at the edges", (LENGTHS.len() * ROOM_KINDS) as u64, |number| {
        let random = &mut Random::of_case(seed, GROUP + 1, number);
        writing.one(random, LENGTHS[number as usize / ROOM_KINDS], number as usize % ROOM_KINDS)
    });
    writing.every_room(report, seed);
    writing.report(report);
}

impl Rooms {
    fn new(code: usize) -> Rooms {
        Rooms {
            code: Guarded::new(code, Access::ReadOnly),
            text: Guarded::new(text_length(code) + 64, Access::Writable),
        }
    }

    /// Compares one call, with a buffer of that length; the text of a difference.
    fn held(&mut self, random: &mut Random, code: &[u8], room: usize) -> Option<String> {
        let before = random.bytes(room);
        let mut wanted = before.clone();
        let want = calls::hex_write(code, &mut wanted);
        self.code.put(code, random.bit() == 1);
        self.text.put(&before, random.bit() == 1);
        let got = exported::hex_write(self.code.lent(), self.text.lent_mut());
        let intact = self.code.intact() && self.text.intact();
        let back = got != want || got < 0 || self.gives_back(code, got as usize);
        if got == want && self.text.left() == wanted && intact && back {
            return None;
        }
        let start = &code[..code.len().min(MOST_SHOWN)];
        let sides = both(&before, (want, &wanted), (got, self.text.left()), intact);
        let again = if back { "" } else { ", which is not read again as that" };
        Some(format!("code of {} bytes{again}, from {} on\n{sides}", code.len(), hex(start)))
    }

    /// Whether what was written is read as the kernel, by both programs.
    fn gives_back(&self, code: &[u8], length: usize) -> bool {
        let text = &self.text.lent()[..length];
        [exported::hex_read, calls::hex_read].iter().all(|read| {
            let (mut back, mut row) = (vec![0xA5; code.len() + 1], [0xA5; 8]);
            let answer = read(text, &mut back, &mut row);
            answer == code.len() as i32 && back[..code.len()] == *code && back[code.len()] == 0xA5 && row == [0xA5; 8]
        })
    }
}

impl Writing {
    fn new() -> Writing {
        let (small, large) = (Rooms::new(MOST_CODE), Rooms::new(MOST_LENT));
        Writing { small, large, rooms: [0; ROOMS.len()], too_long: [0; 2], last_rows: [0; ROW + 1], longest: 0 }
    }

    /// Compares one case; the text of a difference.
    fn one(&mut self, random: &mut Random, length: usize, kind: usize) -> Option<String> {
        let code = of_bytes(random, length);
        let room = room(random, kind, text_length(length));
        self.held(random, &code, room)
    }

    fn held(&mut self, random: &mut Random, code: &[u8], room: usize) -> Option<String> {
        self.count(code, room);
        let rooms = if code.len() <= MOST_CODE { &mut self.small } else { &mut self.large };
        rooms.held(random, code, room)
    }

    fn count(&mut self, code: &[u8], room: usize) {
        let length = text_length(code.len());
        if code.len() > MOST_CODE {
            self.too_long[(room >= length) as usize] += 1;
            return;
        }
        let which = [room == 0, room + 1 == length, room == length, room > length];
        which.iter().zip(&mut self.rooms).for_each(|(is, times)| *times += *is as u64);
        if room >= length {
            let last = code.chunks(ROW).next_back().map_or(0, <[u8]>::len);
            self.last_rows[last] += 1;
            self.longest += (length == MOST_TEXT) as u64;
        }
    }

    /// Short kernels with every length of the buffer.
    fn every_room(&mut self, report: &mut Report, seed: u64) {
        let cases: Vec<(usize, usize)> =
            (0..=EVERY_ROOM).flat_map(|length| (0..text_length(length) + 3).map(move |room| (length, room))).collect();
        report.compare("hex write, every room", cases.len() as u64, |number| {
            let random = &mut Random::of_case(seed, GROUP + 2, number);
            let (length, room) = cases[number as usize];
            let code = random.bytes(length);
            self.held(random, &code, room)
        });
    }

    fn report(&self, report: &mut Report) {
        for (times, what) in self.too_long.iter().zip(["", ", with room for its text"]) {
            report.happened(&format!("hex write refused 1 for a kernel above 8,192 bytes{what}"), *times);
        }
        for (room, what) in ROOMS.iter().enumerate() {
            let answer = if room < 2 { "refused 1 for" } else { "gave the text in" };
            report.happened(&format!("hex write {answer} a buffer {what}"), self.rooms[room]);
        }
        report.happened("hex write gave the end row alone", self.last_rows[0]);
        for (count, times) in self.last_rows.iter().enumerate().skip(1) {
            report.happened(&format!("hex write gave {count} bytes in the last row before the end row"), *times);
        }
        report.happened("hex write gave 22,540 characters", self.longest);
    }
}

/// Each row has 12 characters besides its data, the end row too.
fn text_length(code: usize) -> usize {
    12 * (code.div_ceil(ROW) + 1) + 2 * code
}

fn length(random: &mut Random) -> usize {
    if random.once_in(16) {
        random.below(MOST_CODE + 1)
    } else {
        few(random, 9) - 1
    }
}

/// A room of a kind for a text of that length.
fn room(random: &mut Random, kind: usize, text: usize) -> usize {
    match kind {
        0 => 0,
        1 => text - 1,
        2 => random.below(text + 1),
        3 => text + 1 + random.below(64),
        4 => text.max(MOST_TEXT),
        _ => text,
    }
}
