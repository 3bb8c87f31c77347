//! Reading of Intel HEX compared: the answer, and every byte of the buffers for the kernel and for the number of a row.

use crate::exported;
use crate::guarded::{Access, Guarded};
use crate::hextexts::{text, ways, Known, Text, FEW_ROWS, HUNDREDS, LONG_TEXTS};
use crate::plain::calls::{self, ROW_BYTES};
use crate::plain::hex::{read, Bad, Fault, MOST_CODE};
use crate::random::Random;
use crate::report::{both, Report};
use crate::{hexevery, hexsaid};

const GROUP: u64 = 30;
/// Texts and kernels up to the first lengths are lent in memory of their own, so that there is less to look through.
const SMALL: [usize; 2] = [24_000, 8_300];
const LARGE: [usize; 2] = [1_000_000, 66_000];
/// The longest buffer for the number of a row.
const MOST_ROW: usize = 16;
/// A text is shown up to so many characters.
const MOST_SHOWN: usize = 300;

#[rustfmt::skip]
const FAULTS: [(Fault, &str); 11] = [
    (Fault::LineFeed, "a missing line feed"), (Fault::Character, "a bad character"), (Fault::Length, "the length of a row"),
    (Fault::Sum, "a bad sum"), (Fault::Gap, "a gap"), (Fault::Overlap, "an overlap"), (Fault::Type, "another type"),
    (Fault::EndAddress, "an end row with an address"), (Fault::EndData, "an end row with data"), (Fault::NoEnd, "no end row"),
    (Fault::AfterEnd, "text after the end row"),
];

/// What a buffer is to what is given in it; with the first two it is refused.
pub const ROOMS: [&str; 4] = ["that is empty", "one byte too short", "that is exact", "that is longer"];

/// Memory that is lent again and again.
struct Rooms {
    text: Guarded,
    code: Guarded,
    row: Guarded,
}

pub struct Reading {
    small: Rooms,
    large: Rooms,
    ways: Vec<u64>,
    faults: [u64; FAULTS.len()],
    /// Texts with a bad row, by the length of the row's buffer.
    rows: [u64; MOST_ROW + 1],
    /// Texts without, where the kernel is not too long, by its buffer.
    rooms: [u64; ROOMS.len()],
    /// Kernels above 8,192 bytes, without and with room for them.
    too_long: [u64; 2],
}

pub fn compare(report: &mut Report, seed: u64, cases: u64) {
    let mut reading = Reading::new();
    hexsaid::read_compared(report, &mut reading);
    let groups = [
        ("hex read", FEW_ROWS, cases),
        ("hex read, a bad row after hundreds", HUNDREDS, cases / 20),
        ("hex read, long texts", LONG_TEXTS, cases / 400),
    ];
    for (group, (what, places, cases)) in (GROUP..).zip(groups) {
        report.compare(what, cases, |number| {
            let way = places.start + number as usize % places.len();
            reading.one(&mut Random::of_case(seed, group, number), way)
        });
    }
    hexevery::compare(report, &mut reading, seed);
    reading.report(report);
}

impl Rooms {
    fn new([text, code]: [usize; 2]) -> Rooms {
        Rooms {
            text: Guarded::new(text, Access::ReadOnly),
            code: Guarded::new(code, Access::Writable),
            row: Guarded::new(MOST_ROW, Access::Writable),
        }
    }

    /// Compares one call, by what stands in its buffers; the text of a difference.
    fn held(&mut self, random: &mut Random, text: &[u8], code: &[u8], row: &[u8]) -> Option<String> {
        self.text.put(text, random.bit() == 1);
        self.code.put(code, random.bit() == 1);
        self.row.put(row, random.bit() == 1);
        let got = exported::hex_read(self.text.lent(), self.code.lent_mut(), self.row.lent_mut());
        let (mut code_wanted, mut row_wanted) = (code.to_vec(), row.to_vec());
        let want = calls::hex_read(text, &mut code_wanted, &mut row_wanted);
        let (code_left, row_left) = (self.code.left(), self.row.left());
        let intact = [&self.text, &self.code, &self.row].iter().all(|room| room.intact());
        if got == want && code_left == code_wanted && row_left == row_wanted && intact {
            return None;
        }
        let codes = both(code, (want, &code_wanted), (got, code_left), intact);
        let rows = both(row, (want, &row_wanted), (got, row_left), intact);
        Some(format!("{}\n kernel\n{codes}\n row\n{rows}", shown(text)))
    }
}

impl Reading {
    fn new() -> Reading {
        Reading {
            small: Rooms::new(SMALL),
            large: Rooms::new(LARGE),
            ways: vec![0; ways().len()],
            faults: [0; FAULTS.len()],
            rows: [0; MOST_ROW + 1],
            rooms: [0; ROOMS.len()],
            too_long: [0; 2],
        }
    }

    /// Compares one case; the text of a difference.
    fn one(&mut self, random: &mut Random, way: usize) -> Option<String> {
        self.ways[way] += 1;
        let text = text(random, way);
        self.held(random, &text)
    }

    pub fn held(&mut self, random: &mut Random, Text { characters, known }: &Text) -> Option<String> {
        let found = read(characters);
        let kernel = found.as_ref().map_or(0, Vec::len);
        let (code, row) = (code_room(random, kernel), row_room(random));
        self.count(&found, code, row);
        if !agrees(&found, known) {
            return Some(format!("{}\n  the plain program says {found:?}", shown(characters)));
        }
        let (code, row) = (random.bytes(code), random.bytes(row));
        let fits = characters.len() <= SMALL[0] && code.len() <= SMALL[1];
        let rooms = if fits { &mut self.small } else { &mut self.large };
        rooms.held(random, characters, &code, &row)
    }

    fn count(&mut self, found: &Result<Vec<u8>, Bad>, code: usize, row: usize) {
        match found {
            Err(bad) => {
                let which = FAULTS.iter().position(|(fault, _)| *fault == bad.fault).expect("a fault of the list");
                self.faults[which] += 1;
                self.rows[row] += 1;
            }
            Ok(kernel) if kernel.len() > MOST_CODE => self.too_long[(code >= kernel.len()) as usize] += 1,
            Ok(kernel) if code > kernel.len() => self.rooms[3] += 1,
            Ok(kernel) if code == kernel.len() => self.rooms[2] += 1,
            Ok(kernel) if code + 1 == kernel.len() => self.rooms[1] += 1,
            Ok(_) => self.rooms[0] += (code == 0) as u64,
        }
    }

    fn report(&self, report: &mut Report) {
        for ((fault, what), times) in FAULTS.iter().zip(self.faults) {
            report.happened(&format!("hex read refused {} for {what}", fault.refusal()), times);
        }
        for (length, times) in self.rows.iter().enumerate().filter(|(length, _)| *length < 10 || *length == MOST_ROW) {
            let told = if length < ROW_BYTES { "did not tell" } else { "told" };
            report.happened(&format!("hex read {told} the bad row in a buffer of {length} bytes"), *times);
        }
        for (room, what) in ROOMS.iter().enumerate() {
            let answer = if room < 2 { "refused 1 for" } else { "gave the kernel in" };
            report.happened(&format!("hex read {answer} a buffer {what}"), self.rooms[room]);
        }
        for (times, what) in self.too_long.iter().zip(["", ", with room for it"]) {
            report.happened(&format!("hex read refused 1 for a kernel above 8,192 bytes{what}"), *times);
        }
        for (way, times) in ways().iter().zip(&self.ways) {
            report.happened(&format!("hex read: {way}"), *times);
        }
    }
}

/// Whether the plain program finds what is known.
fn agrees(found: &Result<Vec<u8>, Bad>, known: &Known) -> bool {
    match (known, found) {
        (Known::Nothing, _) => true,
        (Known::Kernel(kernel), Ok(found)) => found == kernel,
        (Known::Bad { row, refusal }, Err(bad)) => (bad.row, bad.fault.refusal()) == (*row, *refusal),
        _ => false,
    }
}

fn code_room(random: &mut Random, kernel: usize) -> usize {
    match random.below(8) {
        0 | 1 => kernel,
        2 => kernel.saturating_sub(1),
        3 => 0,
        4 => kernel + 1 + random.below(64),
        5 => random.below(kernel + 1),
        6 => random.below(64),
        _ => MOST_CODE + random.below(3),
    }
}

fn row_room(random: &mut Random) -> usize {
    match random.below(4) {
        0 => ROW_BYTES,
        1 => MOST_ROW,
        _ => random.below(ROW_BYTES + 2),
    }
}

fn shown(text: &[u8]) -> String {
    let start = &text[..text.len().min(MOST_SHOWN)];
    format!("{} characters, from \"{}\" on", text.len(), start.escape_ascii())
}
