//! Splitmix64, a small seeded source of numbers.

#[derive(Clone, Debug)]
pub struct Rng {
    state: u64,
}

impl Rng {
    pub fn new(seed: u64) -> Self {
        Rng { state: seed }
    }

    pub fn word(&mut self) -> u64 {
        self.state = self.state.wrapping_add(0x9e37_79b9_7f4a_7c15);
        let mut word = self.state;
        word = (word ^ (word >> 30)).wrapping_mul(0xbf58_476d_1ce4_e5b9);
        word = (word ^ (word >> 27)).wrapping_mul(0x94d0_49bb_1331_11eb);
        word ^ (word >> 31)
    }

    /// A number from 0 to `bound` - 1, or 0 where `bound` is 0.
    pub fn below(&mut self, bound: usize) -> usize {
        let word = self.word();
        word.checked_rem(bound as u64).unwrap_or(0) as usize
    }

    /// A number from `least` to `most`, or `least` where `most` is smaller.
    pub fn between(&mut self, least: u64, most: u64) -> u64 {
        let span = most.saturating_sub(least).saturating_add(1);
        least.saturating_add(self.word() % span)
    }

    /// A number from `least` to `most` other than `excluded`; there must be one.
    pub fn between_but(&mut self, least: u64, most: u64, excluded: u64) -> u64 {
        let drawn = self.between(least, most);
        if drawn != excluded {
            drawn
        } else if excluded < most {
            excluded + 1
        } else {
            least
        }
    }

    /// A number from `least` to `most`, both included.
    pub fn signed(&mut self, least: i32, most: i32) -> i64 {
        let (least, most) = (i64::from(least), i64::from(most));
        least + self.between(0, (most - least).max(0) as u64) as i64
    }

    /// True in `percent` of a hundred draws.
    pub fn percent(&mut self, percent: usize) -> bool {
        self.below(100) < percent
    }

    pub fn pick<'a, T>(&mut self, choices: &'a [T]) -> Option<&'a T> {
        choices.get(self.below(choices.len()))
    }

    pub fn shuffle<T>(&mut self, list: &mut [T]) {
        for end in (1..list.len()).rev() {
            list.swap(end, self.below(end + 1));
        }
    }

    /// `count` numbers of `least` or more that add up to `total`; where there
    /// are any, `total` must reach `count` × `least`.
    pub fn shares(&mut self, total: u64, count: usize, least: u64) -> Vec<u64> {
        let mut shares = vec![least; count];
        let mut rest = total.saturating_sub(least.saturating_mul(count as u64));
        if let Some((last, others)) = shares.split_last_mut() {
            for share in others {
                let part = self.between(0, rest);
                *share += part;
                rest -= part;
            }
            *last += rest;
        }
        self.shuffle(&mut shares);
        shares
    }
}
