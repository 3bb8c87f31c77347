//! Compares the exported functions of the proved program with the plain Rust program, on random and damaged instructions, on random
//! runs, on runs that come back to addresses, on pairs of kernels and on texts of Intel HEX: every answer, and every byte of every
//! buffer. What is lent lies against pages that nobody may touch. Runs that were made for the marks are held to what they must leave, and
//! some runs to what their threads leave by themselves.
//!
//! The arguments are a factor for the number of cases and a seed; with the same two the cases are the same. With `--named`
//! before them each case is named before it is tried.

mod arrange;
#[path = "../../bench/assemble.rs"]
#[allow(dead_code)]
mod assemble;
#[path = "../comparison/beside.rs"]
mod beside;
mod beyond;
mod blocks;
mod calling;
mod comparing;
mod damage;
mod decoding;
#[path = "../comparison/diagrams.rs"]
mod diagrams;
mod differing;
mod directed;
mod discarding;
mod encoding;
#[path = "../../bench/exported.rs"]
#[allow(dead_code)]
mod exported;
mod following;
mod guarded;
mod halves;
mod hexbad;
mod hexdamage;
mod hexevery;
mod hexgood;
mod hexreading;
mod hexrows;
mod hexsaid;
mod hexscratched;
mod hextexts;
mod hexwriting;
mod instructions;
mod kernels;
mod marks;
mod masking;
mod met;
mod nulls;
mod overlaps;
mod pairs;
#[path = "../../bench/plain/mod.rs"]
#[allow(dead_code, unused_imports)]
mod plain;
mod random;
mod refused;
mod report;
mod revisits;
mod rounds;
mod running;
mod stepped;
mod threads;
mod visits;

use report::Report;

const DECODED: u64 = 204_800;
const ENCODED: u64 = 307_200;
const RUNS: u64 = 9_216;
/// Runs whose threads are then done one by one.
const BY_THREAD: u64 = 256;
/// Runs that come back to addresses, of each kind.
const REVISITS: u64 = 256;
const COMPARED: u64 = 61_440;
/// The encodings of each form in which every bit is turned round.
const TURNED: u64 = 20;
/// Texts of Intel HEX, and kernels to write.
const READ: u64 = 40_960;
const WRITTEN: u64 = 6_144;
const SEED: u64 = 20_260;

fn main() {
    let mut arguments = std::env::args().skip(1).peekable();
    let named = arguments.next_if_eq("--named").is_some();
    let rounds: f64 = arguments.next().map_or(1.0, |rounds| rounds.parse().expect("a factor"));
    let seed: u64 = arguments.next().map_or(SEED, |seed| seed.parse().expect("a seed"));
    println!("seed {seed}");
    let cases = |count: u64| (count as f64 * rounds) as u64;
    let mut report = Report::new(named);
    nulls::compare(&mut report);
    decoding::compare(&mut report, seed, cases(DECODED));
    encoding::compare(&mut report, seed, cases(ENCODED));
    directed::compare_all(&mut report, seed);
    running::compare(&mut report, seed, cases(RUNS));
    threads::compare(&mut report, seed, cases(BY_THREAD));
    revisits::compare(&mut report, seed, cases(REVISITS));
    comparing::compare(&mut report, seed, cases(COMPARED), cases(TURNED));
    hexreading::compare(&mut report, seed, cases(READ));
    hexwriting::compare(&mut report, seed, cases(WRITTEN));
    std::process::exit(if report.end() { 0 } else { 1 });
}
