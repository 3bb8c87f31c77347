//! The plain Rust program: decoding, encoding, runs and comparisons of G13 kernels, and kernels as Intel HEX, as 01 and the change
//! requests define them, written from these and document 002 and from nothing else of this repository. The proved program is timed
//! against it and compared with it, and the outside vectors are run through it.
//!
//! `find` and `decode` read an instruction, `operand` says what its operands are. `form` has the byte form, `fields` makes it of a
//! decoded instruction, `encode` makes an encoding of it. `lanes` reads and writes the 32 threads of an operand, `marks` has what is
//! discarded, `sums`, `bits` and `masks` have the arithmetic, `step` does one instruction and `run` a whole run. `compare` compares two
//! kernels. `hex` reads and writes kernels as text. `calls` has the calls of the C interface.

mod bits;
pub mod calls;
pub mod compare;
pub mod decode;
pub mod encode;
mod fields;
pub mod find;
pub mod form;
pub mod hex;
mod lanes;
mod marks;
mod masks;
pub mod operand;
mod run;
mod step;
mod sums;

pub use run::{run, Answer, Ending};

/// The threads that step together.
pub const THREADS: usize = 32;

/// A refusal's number in 01.
pub type Refusal = u8;
