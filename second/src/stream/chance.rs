//! Seeded chance, so that a stream can be made again from its seed.

/// The splitmix64 sequence.
pub struct Chance {
    state: u64,
}

impl Chance {
    pub fn new(seed: u64) -> Chance {
        Chance { state: seed }
    }

    pub fn any(&mut self) -> u64 {
        self.state = self.state.wrapping_add(0x9e37_79b9_7f4a_7c15);
        let mut mixed = self.state;
        mixed = (mixed ^ (mixed >> 30)).wrapping_mul(0xbf58_476d_1ce4_e5b9);
        mixed = (mixed ^ (mixed >> 27)).wrapping_mul(0x94d0_49bb_1331_11eb);
        mixed ^ (mixed >> 31)
    }

    /// From `low` to `high`, both included. Evenness to the last bit is of no
    /// concern here.
    pub fn between(&mut self, low: u64, high: u64) -> u64 {
        match (high - low).checked_add(1) {
            Some(count) => low + self.any() % count,
            None => self.any(),
        }
    }

    pub fn index(&mut self, count: usize) -> usize {
        self.between(0, count as u64 - 1) as usize
    }

    pub fn one_in(&mut self, count: u64) -> bool {
        self.between(1, count) == 1
    }

    pub fn pick<T: Copy>(&mut self, choices: &[T]) -> T {
        choices[self.index(choices.len())]
    }

    /// A number of any length in bits up to `most_bits`, short ones as often as
    /// long ones.
    pub fn of_any_length(&mut self, most_bits: u64) -> u64 {
        match self.between(0, most_bits) {
            0 => 0,
            bits => self.any() >> (64 - bits),
        }
    }

    pub fn bytes(&mut self, count: usize) -> Vec<u8> {
        (0..count).map(|_| self.any() as u8).collect()
    }

    /// `chosen` of `places` places, each choice as likely as another.
    pub fn places(&mut self, places: usize, chosen: usize) -> Vec<bool> {
        let mut still_to_choose = chosen;
        let mut choice = Vec::with_capacity(places);
        for still_there in (1..=places).rev() {
            let is_chosen = self.index(still_there) < still_to_choose;
            choice.push(is_chosen);
            still_to_choose -= usize::from(is_chosen);
        }
        choice
    }
}
