//! Times decoding, and runs of the benchmark kernels, by the plain Rust program and by the proved program, and compares everything
//! that the two leave. It also times calls of the proved program that make no step: what it costs that words cross as bytes.

mod assemble;
mod decoding;
mod drawn;
#[allow(dead_code)]
mod exported;
mod kernels;
#[allow(dead_code)]
mod plain;
mod programs;

use kernels::{lent, Kernel, BUDGET, REGISTERS, SPECIALS};
use plain::Answer;
use programs::{Plain, Program, Proved};

const ROUNDS: usize = 41;
const WARM_UP: usize = 5;
/// A call that makes no step is too short to be timed alone.
const CALLS: usize = 100;
/// Registers of the small state, which has no special registers.
const FEW: usize = 8;

fn main() {
    let decoded = decoding::time_all();
    println!();
    let ran = time_runs();
    if !(decoded && ran) {
        println!("the two programs differ");
        std::process::exit(1);
    }
}

/// Times the runs of each kernel and prints them; false if the two programs leave something different.
fn time_runs() -> bool {
    let (large, small) = (no_step(REGISTERS, SPECIALS), no_step(FEW, 0));
    println!("steps per second, median of {ROUNDS} runs, of {BUDGET} steps where the kernel is a loop");
    println!("ratio = time of plain Rust / time of the proved program: 1.00 as fast as plain Rust, above 1 faster");
    println!("a call of the proved program that makes no step, for the bytes alone:");
    println!("  {:6.0} ns with {REGISTERS} registers and {SPECIALS} special registers (large)", large * 1e9);
    println!("  {:6.0} ns with {FEW} registers and no special registers (small)", small * 1e9);
    println!("large, small = the part that this is of a call with all its steps");
    let [plain, proved] = ["plain", "proved"];
    println!(
        "{:24} {:>13} {plain:>11} {proved:>11} {:>6} {:>6} {:>6}",
        "kernel", "plain ns/step", "ratio", "large", "small"
    );
    let same: Vec<bool> = kernels::all().iter().map(|kernel| time(kernel, large, small)).collect();
    !same.contains(&false)
}

/// The time of a call on empty code, which is finished at once, in seconds.
fn no_step(registers: usize, specials: usize) -> f64 {
    let mut proved = Proved::from(lent(registers, specials));
    let mut times = Vec::new();
    for _ in 0..ROUNDS {
        let time: f64 = (0..CALLS).map(|_| proved.run(&[], u32::MAX).1.as_secs_f64()).sum();
        times.push(time / CALLS as f64);
    }
    median(times)
}

/// Times one kernel and prints its line; false if the two programs leave something different.
fn time(kernel: &Kernel, large: f64, small: f64) -> bool {
    let mut plain = Timed::new(|| Plain(lent(REGISTERS, SPECIALS)));
    let mut proved = Timed::new(|| Proved::from(lent(REGISTERS, SPECIALS)));
    for round in 0..WARM_UP + ROUNDS {
        plain.round(kernel, round >= WARM_UP);
        proved.round(kernel, round >= WARM_UP);
    }
    let answer = plain.answer.expect("it ran");
    assert_eq!(answer.ending, kernel.ending, "{}", kernel.name);
    let same = leave_the_same(&plain, &proved);
    let [own, other] = [median(plain.times), median(proved.times)];
    let all = (other - large).max(0.0);
    let part = |call: f64| format!("{:.2}%", 100.0 * call / (call + all));
    let steps = answer.steps as f64;
    print!("{:24} {:13.1} {:11.0}", kernel.name, own * 1e9 / steps, steps / own);
    println!(" {:11.0} {:6.2} {:>6} {:>6}", steps / other, own / other, part(large), part(small));
    same
}

fn median(mut times: Vec<f64>) -> f64 {
    times.sort_by(f64::total_cmp);
    times[times.len() / 2]
}

/// A program with what it was lent and left in the last run, how to lend it the same anew, and the times of its runs in seconds.
struct Timed<P: Program> {
    fresh: fn() -> P,
    program: P,
    answer: Option<Answer>,
    times: Vec<f64>,
}

impl<P: Program> Timed<P> {
    fn new(fresh: fn() -> P) -> Timed<P> {
        Timed { fresh, program: fresh(), answer: None, times: Vec::new() }
    }

    /// One run from the same contents.
    fn round(&mut self, kernel: &Kernel, counts: bool) {
        self.program = (self.fresh)();
        let (answer, time) = self.program.run(&kernel.code, kernel.mask);
        self.answer = Some(answer);
        if counts {
            self.times.push(time.as_secs_f64());
        }
    }
}

fn leave_the_same(plain: &Timed<Plain>, proved: &Timed<Proved>) -> bool {
    let (own, other) = (plain.program.left(), proved.program.left());
    let same = [
        ("answers", plain.answer == proved.answer),
        ("registers", own.0 == other.0),
        ("marks", own.1 == other.1),
        ("records", own.2 == other.2),
    ];
    for (what, _) in same.iter().filter(|(_, same)| !same) {
        println!("  {what} differ");
    }
    same.iter().all(|(_, same)| *same)
}

#[cfg(test)]
mod tests {
    use super::*;

    #[test]
    fn both_programs_run_the_kernels_alike() {
        for kernel in kernels::all() {
            let mut plain = Timed::new(|| Plain(lent(REGISTERS, SPECIALS)));
            let mut proved = Timed::new(|| Proved::from(lent(REGISTERS, SPECIALS)));
            plain.round(&kernel, false);
            proved.round(&kernel, false);
            assert_eq!(plain.answer.map(|answer| answer.ending), Some(kernel.ending), "{}", kernel.name);
            assert!(leave_the_same(&plain, &proved), "{}", kernel.name);
            let marks = plain.program.left().1.iter().any(|mark| *mark != 0);
            assert_eq!(marks, kernel.name.starts_with("discards"), "{}", kernel.name);
        }
    }
}
