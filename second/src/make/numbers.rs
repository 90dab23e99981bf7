//! Made-up numbers from a seed (splitmix64), so that every run sees the same inputs.

pub struct Numbers {
    state: u64,
}

impl Numbers {
    /// Numbers of their own for each index, so that any one input can be made again alone.
    pub fn from_seed(seed: u64, kind: u64, index: u64) -> Numbers {
        let mut state = seed;
        for part in [kind, index] {
            state = Numbers { state }.any() ^ part;
        }
        Numbers { state }
    }

    pub fn any(&mut self) -> u64 {
        self.state = self.state.wrapping_add(0x9e37_79b9_7f4a_7c15);
        let mut mixed = self.state;
        mixed = (mixed ^ (mixed >> 30)).wrapping_mul(0xbf58_476d_1ce4_e5b9);
        mixed = (mixed ^ (mixed >> 27)).wrapping_mul(0x94d0_49bb_1331_11eb);
        mixed ^ (mixed >> 31)
    }

    pub fn below(&mut self, bound: u64) -> u64 {
        ((u128::from(self.any()) * u128::from(bound)) >> 64) as u64
    }

    pub fn up_to(&mut self, most: u64) -> u64 {
        self.below(most + 1)
    }

    pub fn between(&mut self, least: u64, most: u64) -> u64 {
        least + self.up_to(most - least)
    }

    pub fn position_below(&mut self, bound: usize) -> usize {
        self.below(bound as u64) as usize
    }

    pub fn count_between(&mut self, least: usize, most: usize) -> usize {
        self.between(least as u64, most as u64) as usize
    }

    pub fn once_in(&mut self, times: u64) -> bool {
        self.below(times) == 0
    }

    pub fn one_of<T: Copy>(&mut self, choices: &[T]) -> T {
        choices[self.position_below(choices.len())]
    }

    /// So many of them, or all where there are fewer, in their order.
    pub fn so_many_of<T: Copy>(&mut self, all: &[T], count: usize) -> Vec<T> {
        let mut wanted = count as u64;
        let mut left = all.len() as u64;
        let chosen = all.iter().filter(|_| {
            let choose = self.below(left) < wanted;
            left -= 1;
            wanted -= u64::from(choose);
            choose
        });
        chosen.copied().collect()
    }

    /// The first, the last or one in the middle, each as often: faults like to hide at the ends.
    pub fn first_middle_or_last(&mut self, first: usize, last: usize) -> usize {
        match self.below(3) {
            0 => first,
            1 => last,
            _ => self.count_between(first, last),
        }
    }

    /// The first or the last now and then, else any of them.
    pub fn somewhere(&mut self, first: usize, last: usize) -> usize {
        match self.below(12) {
            0 => first,
            1 => last,
            _ => self.count_between(first, last),
        }
    }

    /// Different numbers from 1 to `most`, ascending.
    pub fn ascending(&mut self, count: usize, most: u64) -> Vec<u64> {
        match self.below(4) {
            0 => (1..=count as u64).collect(),
            1 => (most + 1 - count as u64..=most).collect(),
            _ => {
                let mut chosen = Vec::with_capacity(count);
                while chosen.len() < count {
                    chosen.extend((chosen.len()..count).map(|_| self.between(1, most)));
                    chosen.sort_unstable();
                    chosen.dedup();
                }
                chosen
            }
        }
    }

    /// Numbers up to `most` that add up to `total`, which they can.
    pub fn parts(&mut self, count: usize, total: u64, most: u64) -> Vec<u64> {
        let mut left = total;
        (1..=count as u64)
            .rev()
            .map(|parts_left| {
                let later = parts_left - 1;
                let least = left.saturating_sub(most.saturating_mul(later));
                let greatest = most.min(left);
                // Twice the mean at most, so that the first parts don't take it all.
                let usual = greatest.min(2 * left / parts_left).max(least);
                let part = match later {
                    0 => left,
                    _ => self.between(least, usual),
                };
                left -= part;
                part
            })
            .collect()
    }
}
