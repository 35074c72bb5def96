//! A small reproducible source of test data. It is not fit for secrets.

/// SplitMix64: every seed gives a full-period sequence, so runs can be repeated by their seed.
#[derive(Clone, Debug)]
pub struct Random(u64);

impl Random {
    pub fn from_seed(seed: u64) -> Self {
        Random(seed)
    }

    pub fn word(&mut self) -> u64 {
        self.0 = self.0.wrapping_add(0x9e37_79b9_7f4a_7c15);
        let mut mixed = self.0;
        mixed = (mixed ^ (mixed >> 30)).wrapping_mul(0xbf58_476d_1ce4_e5b9);
        mixed = (mixed ^ (mixed >> 27)).wrapping_mul(0x94d0_49bb_1331_11eb);
        mixed ^ (mixed >> 31)
    }

    pub fn byte(&mut self) -> u8 {
        self.word() as u8
    }

    /// A number from `least` to `most`, both included.
    pub fn between(&mut self, least: usize, most: usize) -> usize {
        least + (self.word() % (most - least + 1) as u64) as usize
    }

    /// True once in `count` on average.
    pub fn once_in(&mut self, count: usize) -> bool {
        self.between(1, count) == 1
    }

    pub fn bytes(&mut self, count: usize) -> Vec<u8> {
        (0..count).map(|_| self.byte()).collect()
    }

    pub fn shuffle<T>(&mut self, items: &mut [T]) {
        for last in (1..items.len()).rev() {
            items.swap(last, self.between(0, last));
        }
    }

    /// Distinct identifiers, none of them 0.
    pub fn distinct_ids(&mut self, count: usize) -> Vec<u8> {
        let mut ids: Vec<u8> = (1..=255).collect();
        self.shuffle(&mut ids);
        ids.truncate(count);
        ids
    }
}
