//! Holds the exported decode and encode to encodings that another program made: decoded, each must be all that the line says, to the last
//! of the 48 bytes of its byte form; that form, encoded, must be the bytes of the line.
//!
//! The arguments are two files. Every line of the first must hold, and each instruction must stand in it. No line of the second may hold:
//! it shows that the test can fail. Lines that begin with `#` say what the files are. The last line is `N passed, M failed`.

#[path = "../../bench/exported.rs"]
#[allow(dead_code)]
mod exported;
mod line;
#[path = "../../bench/plain/mod.rs"]
#[allow(dead_code, unused_imports)]
mod plain;

use line::{Asked, INSTRUCTIONS};
use plain::form::FORM_BYTES;

const MOST_SHOWN: usize = 10;
/// The bytes of the longest encoding.
const MOST: usize = 8;
/// What stands in a buffer before a call.
const OLD: u8 = 0xA5;

#[derive(Default)]
struct Report {
    passed: usize,
    failed: usize,
}

impl Report {
    fn count(&mut self, why: Option<String>) {
        match why {
            None => self.passed += 1,
            Some(why) => {
                self.failed += 1;
                if self.failed <= MOST_SHOWN {
                    println!("FAIL  {why}");
                }
            }
        }
    }
}

fn main() {
    let paths: Vec<String> = std::env::args().skip(1).collect();
    let [good, bad] = [0, 1].map(|k| paths.get(k).expect("two files"));
    let mut report = Report::default();
    let mut times = [0; INSTRUCTIONS.len()];
    each_line(good, |place, text| {
        let held = asked_and_held(text);
        if let Ok(asked) = &held {
            times[asked.instruction] += 1;
        }
        report.count(held.err().map(|why| format!("{place}: {why}\n      {text}")));
    });
    each_line(bad, |place, text| {
        let wrong = asked_and_held(text).is_ok();
        report.count(wrong.then(|| format!("{place} holds, and must not\n      {text}")));
    });
    for ((word, ..), times) in INSTRUCTIONS.iter().zip(times) {
        if times > 0 {
            println!("ok    {word}: {times} decoded and encoded");
        }
        report.count((times == 0).then(|| format!("{word}: no line holds")));
    }
    println!("{} passed, {} failed", report.passed, report.failed);
    std::process::exit(if report.failed == 0 { 0 } else { 1 });
}

/// Calls `one` with the place and the text of each line that is no comment. A file without any is a fault of the caller.
fn each_line(path: &str, mut one: impl FnMut(&str, &str)) {
    let text = std::fs::read_to_string(path).expect(path);
    let lines: Vec<(usize, &str)> = (1..).zip(text.lines()).filter(|(_, line)| !line.starts_with('#')).collect();
    assert!(!lines.is_empty(), "{path} has no line");
    for (number, line) in lines {
        one(&format!("{path}:{number}"), line);
    }
}

/// What a line asks for, if the exported functions answer and leave exactly that.
fn asked_and_held(text: &str) -> Result<Asked, String> {
    let asked = Asked::read(text)?;
    decodes(&asked)?;
    encodes(&asked)?;
    Ok(asked)
}

fn decodes(asked: &Asked) -> Result<(), String> {
    let mut left = [OLD; FORM_BYTES];
    let got = exported::decode(&asked.bytes, 0, &mut left);
    let (want, form) = (asked.bytes.len() as i32, asked.fields.to_bytes());
    same(got == want && left == form, "decode", (got, &left), (want, &form))
}

fn encodes(asked: &Asked) -> Result<(), String> {
    let mut left = [OLD; MOST];
    let got = exported::encode(&asked.fields.to_bytes(), &mut left);
    let mut wanted = [OLD; MOST];
    wanted[..asked.bytes.len()].copy_from_slice(&asked.bytes);
    let want = asked.bytes.len() as i32;
    same(got == want && left == wanted, "encode", (got, &left), (want, &wanted))
}

fn same(holds: bool, what: &str, got: (i32, &[u8]), want: (i32, &[u8])) -> Result<(), String> {
    let side = |(answer, left): (i32, &[u8])| {
        let digits: Vec<String> = left.iter().map(|byte| format!("{byte:02X}")).collect();
        format!("{answer}, {}", digits.join(" "))
    };
    let told = || format!("{what} answers and leaves\n      {}\n      and not\n      {}", side(got), side(want));
    holds.then_some(()).ok_or_else(told)
}
