//! Made-up numbers from a fixed seed (splitmix64), so that every run sees the same inputs.

pub struct Numbers {
    state: u64,
}

impl Numbers {
    pub fn from_seed(seed: u64) -> Numbers {
        Numbers { state: seed }
    }

    pub fn any(&mut self) -> u64 {
        self.state = self.state.wrapping_add(0x9e37_79b9_7f4a_7c15);
        let mut mixed = self.state;
        mixed = (mixed ^ (mixed >> 30)).wrapping_mul(0xbf58_476d_1ce4_e5b9);
        mixed = (mixed ^ (mixed >> 27)).wrapping_mul(0x94d0_49bb_1331_11eb);
        mixed ^ (mixed >> 31)
    }

    pub fn below(&mut self, bound: u64) -> u64 {
        ((u128::from(self.any()) * u128::from(bound)) >> 64) as u64
    }

    pub fn up_to(&mut self, most: u64) -> u64 {
        self.below(most + 1)
    }

    pub fn position_below(&mut self, bound: usize) -> usize {
        self.below(bound as u64) as usize
    }

    pub fn once_in(&mut self, times: u64) -> bool {
        self.below(times) == 0
    }

    pub fn one_of<T: Copy>(&mut self, choices: &[T]) -> T {
        choices[self.position_below(choices.len())]
    }

    pub fn bytes(&mut self, count: usize) -> Vec<u8> {
        let mut bytes = Vec::with_capacity(count + 7);
        while bytes.len() < count {
            bytes.extend(self.any().to_le_bytes());
        }
        bytes.truncate(count);
        bytes
    }
}
