//! What is printed: a line for each group and for each count that may not be 0, and up to ten differences in full.

const MOST_SHOWN: usize = 10;

#[derive(Default)]
pub struct Report {
    named: bool,
    passed: usize,
    failed: usize,
    differences: usize,
}

impl Report {
    /// Where `named` is true, each case is named on standard error before it is tried, to find one that ends the program.
    pub fn new(named: bool) -> Report {
        Report { named, ..Report::default() }
    }

    /// Compares the cases of a group, each by its number, until so many differ that going on tells nothing new. `case` answers the
    /// text of a difference: what was lent, and what each program answered and left.
    pub fn compare(&mut self, what: &str, cases: u64, mut case: impl FnMut(u64) -> Option<String>) {
        let (mut compared, mut different) = (0, 0);
        while compared < cases && self.differences < MOST_SHOWN {
            if self.named {
                eprintln!("{what}, case {compared}");
            }
            if let Some(text) = case(compared) {
                println!("DIFFERENT  {what}, case {compared}: {text}");
                different += 1;
                self.differences += 1;
            }
            compared += 1;
        }
        if different == 0 {
            self.line(compared > 0, what, &format!("{} compared", grouped(compared)));
        } else {
            self.line(false, what, &format!("{different} of {} differ", grouped(compared)));
        }
    }

    /// Something that must have happened at least once, unless the comparison was broken off.
    pub fn happened(&mut self, what: &str, times: u64) {
        if self.differences < MOST_SHOWN {
            self.line(times > 0, what, &grouped(times));
        }
    }

    /// Things that must each have happened at least once, in one line.
    pub fn reached(&mut self, what: &str, times: &[(&str, u64)]) {
        if self.differences < MOST_SHOWN {
            let counts: Vec<String> = times.iter().map(|(name, times)| format!("{name} {}", grouped(*times))).collect();
            self.line(times.iter().all(|(_, times)| *times > 0), what, &counts.join(", "));
        }
    }

    fn line(&mut self, good: bool, what: &str, count: &str) {
        println!("{} {what}: {count}", if good { "ok   " } else { "FAIL " });
        if good {
            self.passed += 1;
        } else {
            self.failed += 1;
        }
    }

    /// Prints the counts; true where nothing failed.
    pub fn end(&self) -> bool {
        println!("{} passed, {} failed", self.passed, self.failed);
        self.failed == 0
    }
}

/// A number with a comma before every three digits.
fn grouped(number: u64) -> String {
    let digits = number.to_string();
    let mut text = String::new();
    for (k, digit) in digits.chars().enumerate() {
        if k > 0 && (digits.len() - k).is_multiple_of(3) {
            text.push(',');
        }
        text.push(digit);
    }
    text
}

/// Bytes in hexadecimal digits, with their number before them.
pub fn hex(bytes: &[u8]) -> String {
    let digits: Vec<String> = bytes.iter().map(|byte| format!("{byte:02X}")).collect();
    format!("{} bytes {}", bytes.len(), digits.join(" "))
}

/// What the plain and the proved program answered and left in a buffer.
pub fn both(before: &[u8], want: (i32, &[u8]), got: (i32, &[u8]), intact: bool) -> String {
    let side = |(answer, left): (i32, &[u8])| format!("{answer:2}, {}", hex(left));
    let beside = if intact { "" } else { "\n  something was written beside the buffers" };
    format!("  buffer before {}\n  plain  {}\n  proved {}{beside}", hex(before), side(want), side(got))
}
