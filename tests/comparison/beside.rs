//! Kernels that are alike but for one instruction, and what the diagram of that instruction says of their comparison.

use crate::diagrams::possible;
use crate::plain::find::Form;

/// What stands after the instruction, for one that is longer in the other kernel: jmp_exec_any twice. Their bits that a longer
/// instruction takes for flags are zero, so that its operands mean something.
const AFTER: [u8; 12] = [0x00, 0xC0, 0, 0, 0, 0, 0x00, 0xC0, 0, 0, 0, 0];

/// An instruction, the form of its diagram, and the code before it.
pub struct Beside<'a> {
    pub form: &'static Form,
    pub before: &'a [u8],
    pub instruction: &'a [u8],
}

impl Beside<'_> {
    /// The kernel with these bytes in the place of the instruction.
    pub fn kernel(&self, instruction: &[u8]) -> Vec<u8> {
        [self.before, instruction, &AFTER].concat()
    }

    /// The instruction with each of its bits turned round, one after the other.
    pub fn turned(&self) -> Vec<Vec<u8>> {
        let turned = |bit: usize| {
            let mut bytes = self.instruction.to_vec();
            bytes[bit / 8] ^= 1 << (bit % 8);
            bytes
        };
        (0..8 * self.instruction.len()).map(turned).collect()
    }

    /// The words of the line after its address, if it is the address of the instruction and the diagram allows these words where the
    /// other bytes, of the same number, stand in its place. A refusal is allowed.
    pub fn allowed<'l>(&self, other: &[u8], line: &'l str) -> Option<&'l str> {
        let said = line.strip_prefix(&format!("{:04X} ", self.before.len()))?;
        let mut changed = [0; 8];
        for (k, byte) in changed.iter_mut().enumerate().take(other.len()) {
            *byte = self.instruction[k] ^ other[k];
        }
        let possible = possible(self.form, u64::from_le_bytes(changed));
        (said.starts_with("refused ") || possible.contains(&said)).then_some(said)
    }
}
