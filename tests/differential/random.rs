//! Random numbers: xorshift, begun anew for each case, so that a case can be repeated by its seed, group and number.

pub struct Random(u64);

impl Random {
    pub fn of_case(seed: u64, group: u64, number: u64) -> Random {
        // the three are mixed, so that neighbouring cases have nothing in common
        let mut state = seed ^ 0x9E37_79B9_7F4A_7C15;
        for part in [group, number] {
            state = (state ^ part.wrapping_mul(0xD6E8_FEB8_6659_FD93)).wrapping_mul(0xBF58_476D_1CE4_E5B9);
            state ^= state >> 29;
        }
        Random(state | 1)
    }

    pub fn number(&mut self) -> u64 {
        self.0 ^= self.0 >> 12;
        self.0 ^= self.0 << 25;
        self.0 ^= self.0 >> 27;
        self.0.wrapping_mul(0x2545_F491_4F6C_DD1D)
    }

    /// A number from 0 to `end` - 1.
    pub fn below(&mut self, end: usize) -> usize {
        (((self.number() >> 32) * end as u64) >> 32) as usize
    }

    /// True once in `times`.
    pub fn once_in(&mut self, times: usize) -> bool {
        self.below(times) == 0
    }

    pub fn bit(&mut self) -> u8 {
        self.below(2) as u8
    }

    pub fn pick<T: Copy>(&mut self, from: &[T]) -> T {
        from[self.below(from.len())]
    }

    pub fn bytes(&mut self, length: usize) -> Vec<u8> {
        (0..length).map(|_| self.number() as u8).collect()
    }

    /// A word, often one at which arithmetic goes wrong.
    pub fn word(&mut self) -> u32 {
        const EDGES: [u32; 16] = [
            0,
            1,
            2,
            0x7F,
            0x80,
            0xFF,
            0x7FFF,
            0x8000,
            0xFFFF,
            0x1_0000,
            0x7FFF_FFFF,
            0x8000_0000,
            0x8000_0001,
            0xFFFF_0000,
            0xFFFF_8000,
            0xFFFF_FFFF,
        ];
        match self.below(4) {
            0 | 1 => self.pick(&EDGES),
            2 => self.below(200) as u32,
            _ => self.number() as u32,
        }
    }
}
