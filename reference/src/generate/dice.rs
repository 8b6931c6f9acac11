//! Dice that fall the same way for the same seed.

use crate::machine::{Input, Word};

/// A small generator of numbers (splitmix64).
pub struct Dice {
    state: u64,
}

impl Dice {
    /// The dice for one case of a seed.
    pub fn new(seed: u64, case: u64) -> Dice {
        let mut dice = Dice { state: seed };
        dice.state = dice.roll() ^ case.wrapping_mul(0xd134_2543_de82_ef95);
        dice
    }

    fn roll(&mut self) -> u64 {
        self.state = self.state.wrapping_add(0x9e37_79b9_7f4a_7c15);
        let mut mixed = self.state;
        mixed = (mixed ^ (mixed >> 30)).wrapping_mul(0xbf58_476d_1ce4_e5b9);
        mixed = (mixed ^ (mixed >> 27)).wrapping_mul(0x94d0_49bb_1331_11eb);
        mixed ^ (mixed >> 31)
    }

    /// A number below a limit, which is at least 1.
    pub fn below(&mut self, limit: usize) -> usize {
        (self.roll() % limit as u64) as usize
    }

    /// A number from the least to the most.
    pub fn between(&mut self, least: usize, most: usize) -> usize {
        least + self.below(most - least + 1)
    }

    /// A byte below a limit, which is at least 1.
    pub fn byte_below(&mut self, limit: u8) -> u8 {
        self.below(usize::from(limit)) as u8
    }

    /// Any byte.
    pub fn byte(&mut self) -> u8 {
        self.below(256) as u8
    }

    /// True about once in so many throws.
    pub fn one_in(&mut self, throws: usize) -> bool {
        self.below(throws) == 0
    }

    /// One of the things of a list that is not empty.
    pub fn pick<'a, T>(&mut self, things: &'a [T]) -> &'a T {
        &things[self.below(things.len())]
    }

    /// Puts things into any order.
    pub fn shuffle<T>(&mut self, things: &mut [T]) {
        for place in (1..things.len()).rev() {
            things.swap(place, self.below(place + 1));
        }
    }

    /// Any word of this length.
    pub fn word(&mut self, inputs: u8, length: usize) -> Word {
        (0..length)
            .map(|_| Input(self.byte_below(inputs)))
            .collect()
    }
}
