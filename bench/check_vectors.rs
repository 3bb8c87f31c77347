//! Runs outside vectors through the plain Rust program or, with `--cfg linked`, through the proved one: the files that are named, or
//! standard input. tests/vectors/make.py has their form. Prints each difference, and last `N passed, M failed`.

#[cfg(linked)]
#[allow(dead_code)]
mod exported;
#[cfg_attr(linked, allow(unused_imports))]
#[allow(dead_code)]
mod plain;

#[cfg(linked)]
use exported::run_words as tried;
#[cfg(not(linked))]
use plain::run as tried;

use plain::{Answer, Ending};
use std::fmt::Write;

/// What a vector lends to a run.
#[derive(Default)]
struct Lent {
    code: Vec<u8>,
    registers: Vec<u32>,
    marks: Vec<u8>,
    uniforms: Vec<u32>,
    specials: Vec<u32>,
    records: Vec<u8>,
}

fn main() {
    let paths: Vec<String> = std::env::args().skip(1).collect();
    let texts: Vec<String> = if paths.is_empty() {
        vec![std::io::read_to_string(std::io::stdin()).expect("standard input is text")]
    } else {
        paths.iter().map(|path| std::fs::read_to_string(path).expect(path)).collect()
    };
    let (mut passed, mut failed) = (0, 0);
    for vector in texts.iter().flat_map(|text| text.split("\n\n")).filter(|vector| vector.contains("name ")) {
        if same(vector) {
            passed += 1;
        } else {
            failed += 1;
        }
    }
    println!("{passed} passed, {failed} failed");
    std::process::exit(if passed > 0 && failed == 0 { 0 } else { 1 });
}

/// Runs one vector and prints where what it left differs from what it must leave.
fn same(vector: &str) -> bool {
    let lines: Vec<&str> = vector.lines().filter(|line| !line.starts_with('#')).collect();
    let call = lines.iter().position(|line| line.starts_with("call ")).expect("a line that begins with call");
    let left = run(&lines[..=call]);
    let wanted = &lines[call + 1..];
    if left.lines().eq(wanted.iter().copied()) {
        return true;
    }
    println!("FAIL  {}", lines[0]);
    for line in wanted.iter().filter(|line| !left.lines().any(|other| other == **line)) {
        println!("      wanted {line}");
    }
    for line in left.lines().filter(|line| !wanted.contains(line)) {
        println!("      left   {line}");
    }
    false
}

/// Does what the lines up to `call` ask, and answers the lines that follow.
fn run(asked: &[&str]) -> String {
    let mut lent = Lent::default();
    for line in asked {
        let (key, rest) = line.split_at(5);
        match key {
            "size " => lent.make(&numbers(rest)),
            "fill " => lent.fill(&numbers(rest)),
            "code " => put_bytes(&mut lent.code, rest),
            "regs " => put_words(&mut lent.registers, rest),
            "unif " => put_words(&mut lent.uniforms, rest),
            "spec " => put_words(&mut lent.specials, rest),
            "mark " => put_bytes(&mut lent.marks, rest),
            "call " => return lent.run(&numbers(rest)),
            _ => assert_eq!(key, "name "),
        }
    }
    unreachable!("the last line begins with call")
}

impl Lent {
    fn make(&mut self, sizes: &[u32]) {
        let [code, registers, uniforms, specials, records] = [0, 1, 2, 3, 4].map(|k| sizes[k] as usize);
        self.code = vec![0; code];
        self.registers = vec![0; registers];
        self.uniforms = vec![0; uniforms];
        self.specials = vec![0; specials];
        self.records = vec![0xA5; records];
        self.marks = vec![0; sizes.get(5).map_or(2 * registers, |marks| *marks as usize)];
    }

    fn fill(&mut self, by: &[u32]) {
        for (words, factor) in [&mut self.registers, &mut self.uniforms, &mut self.specials].into_iter().zip(by) {
            for (j, word) in (1..).zip(words) {
                *word = factor.wrapping_mul(j);
            }
        }
    }

    fn run(&mut self, call: &[u32]) -> String {
        let before = (self.registers.clone(), self.marks.clone());
        let (start, mask, budget) = (call[0] as usize, call[1], call[2] as usize);
        let answer = tried(
            &self.code,
            &mut self.registers,
            &mut self.marks,
            &self.uniforms,
            &self.specials,
            start,
            mask,
            budget,
            &mut self.records,
        );
        self.left(answer, &before.0, &before.1)
    }

    fn left(&self, answer: Answer, registers: &[u32], marks: &[u8]) -> String {
        let ending = match answer.ending {
            Ending::Finished => "finished".to_string(),
            Ending::Spent => "spent".to_string(),
            Ending::Refused(number) => format!("refused {number}"),
        };
        let mut text = format!("ends {ending} {:08x} {:08x} {:08x}\n", answer.steps, answer.address, answer.mask);
        for (at, words) in changed(&self.registers, registers) {
            let words: Vec<String> = words.iter().map(|word| format!("{word:08x}")).collect();
            writeln!(text, "regs {at:08x} {}", words.join(" ")).unwrap();
        }
        for (at, marks) in changed(&self.marks, marks) {
            writeln!(text, "mark {at:08x} {}", digits(marks)).unwrap();
        }
        for (k, piece) in self.records.chunks(16).enumerate() {
            if piece.iter().any(|byte| *byte != 0xA5) {
                writeln!(text, "recs {:08x} {}", 16 * k, digits(piece)).unwrap();
            }
        }
        text
    }
}

/// Each 32 values that are not as before, and where they stand.
fn changed<'a, T: PartialEq>(now: &'a [T], before: &'a [T]) -> impl Iterator<Item = (usize, &'a [T])> {
    let rows = now.chunks(32).zip(before.chunks(32)).enumerate();
    rows.filter(|(_, (now, before))| now != before).map(|(row, (now, _))| (32 * row, now))
}

fn digits(bytes: &[u8]) -> String {
    bytes.iter().map(|byte| format!("{byte:02x}")).collect()
}

fn numbers(text: &str) -> Vec<u32> {
    text.split(' ').map(|digits| u32::from_str_radix(digits, 16).expect("eight digits")).collect()
}

fn bytes(text: &str) -> Vec<u8> {
    (0..text.len() / 2).map(|k| u8::from_str_radix(&text[2 * k..2 * k + 2], 16).expect("two digits")).collect()
}

fn put<T: Copy>(all: &mut [T], at: &[u32], given: &[T]) {
    let at = at[0] as usize;
    all[at..at + given.len()].copy_from_slice(given);
}

fn put_bytes(all: &mut [u8], rest: &str) {
    put(all, &numbers(&rest[..8]), &bytes(&rest[9..]));
}

fn put_words(all: &mut [u32], rest: &str) {
    let numbers = numbers(rest);
    put(all, &numbers[..1], &numbers[1..]);
}
