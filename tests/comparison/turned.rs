//! Files that differ in one instruction, held to the plain program: for each form of a diagram every bit turned round by itself, and bits
//! of several fields together, of which the first in the order of the comparison must be said.

use crate::beside::Beside;
use crate::diagrams::all_words;
use crate::instructions::{good, ANY};
use crate::plain::compare::compare;
use crate::plain::find::{Form, FORMS};
use crate::program::Program;
use crate::random::Random;

const MOV16: [u8; 4] = [0x62, 0x04, 0x34, 0x12];
const MOST_TRIED: u64 = 1000;

/// All pairs of a form. The forms stand at different addresses.
pub fn outcome(program: &Program, place: usize) -> Result<String, String> {
    let form = &FORMS[place];
    let before = MOV16.repeat(11 * place);
    let instruction = telling(form, place as u64).ok_or("no encoding of it leads to all words of its diagram")?;
    let beside = Beside { form, before: &before, instruction: &instruction };
    let single = beside.turned();
    for (bit, other) in single.iter().enumerate() {
        differ(program, &beside, other, bit % 2 == 1)
            .map_err(|why| format!("bit {bit} of {instruction:02X?}: {why}"))?;
    }
    let several = together(&beside);
    for (word, other) in &several {
        let line = differ(program, &beside, other, false)?;
        if line != format!("{:04X} {word}", before.len()) {
            return Err(format!("{instruction:02X?} and {other:02X?}: the plain program says {line}, and not {word}"));
        }
    }
    Ok(format!("{} pairs, and {} with several fields", single.len(), several.len()))
}

/// The line of the plain program, which the diagram must allow, if the program prints it for the kernel and the one with other bytes in
/// the place of the instruction; or for the two the other way round.
fn differ(program: &Program, beside: &Beside, other: &[u8], round: bool) -> Result<String, String> {
    let mut kernels = [beside.kernel(beside.instruction), beside.kernel(other)];
    if round {
        kernels.reverse();
    }
    let line = compare(&kernels[0], &kernels[1]).line();
    beside.allowed(other, &line).ok_or_else(|| format!("the plain program says {line}"))?;
    program.write("first", &kernels[0]);
    program.write("second", &kernels[1]);
    program.prints("first", "second", &line).map(|()| line)
}

/// Each word of the diagram but `instruction`, and the instruction with a bit for this word and one for every later word turned round.
fn together(beside: &Beside) -> Vec<(&'static str, Vec<u8>)> {
    let mut bytes = beside.instruction.to_vec();
    let mut all = Vec::new();
    for word in all_words(beside.form).into_iter().filter(|word| *word != "instruction").rev() {
        let other = alone(beside, word).expect("an encoding that leads to all words");
        for (k, byte) in bytes.iter_mut().enumerate() {
            *byte ^= beside.instruction[k] ^ other[k];
        }
        all.push((word, bytes.clone()));
    }
    all
}

/// The instruction with a bit turned round for which alone the plain program says this word.
fn alone(beside: &Beside, word: &str) -> Option<Vec<u8>> {
    let kernel = beside.kernel(beside.instruction);
    let line = format!("{:04X} {word}", beside.before.len());
    beside.turned().into_iter().find(|other| compare(&kernel, &beside.kernel(other)).line() == line)
}

/// An encoding of the form whose single bits lead to every word of its diagram, by the plain program.
fn telling(form: &'static Form, group: u64) -> Option<Vec<u8>> {
    let encoding = |number: u64| good(&mut Random::of_case(0, group, number), form, ANY);
    (0..MOST_TRIED).map(encoding).find(|instruction| {
        let beside = Beside { form, before: &[], instruction };
        all_words(form).iter().all(|word| alone(&beside, word).is_some())
    })
}
