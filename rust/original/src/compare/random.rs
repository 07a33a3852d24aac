// SPDX-License-Identifier: Apache-2.0
// SPDX-FileCopyrightText: Copyright the Vortex contributors

//! Random numbers that a seed and the number of a round determine, so that a round can be repeated alone.

/// A sequence of random numbers (SplitMix64).
pub struct Random(u64);

impl Random {
    /// Returns the numbers of this round.
    pub fn new(seed: u64, round: u64) -> Random {
        let mut random = Random(seed);
        Random(random.number() ^ round.wrapping_mul(0xD1B5_4A32_D192_ED03))
    }

    /// Returns the next number.
    pub fn number(&mut self) -> u64 {
        self.0 = self.0.wrapping_add(0x9E37_79B9_7F4A_7C15);
        let mixed = (self.0 ^ (self.0 >> 30)).wrapping_mul(0xBF58_476D_1CE4_E5B9);
        let mixed = (mixed ^ (mixed >> 27)).wrapping_mul(0x94D0_49BB_1331_11EB);
        mixed ^ (mixed >> 31)
    }

    /// Returns a number below this one, which isn't 0.
    pub fn below(&mut self, end: usize) -> usize {
        ((u128::from(self.number()) * end as u128) >> 64) as usize
    }

    /// Returns true in one of so many cases.
    pub fn one_in(&mut self, cases: usize) -> bool {
        self.below(cases) == 0
    }

    /// Returns one of the items.
    pub fn pick<'a, T>(&mut self, items: &'a [T]) -> &'a T {
        &items[self.below(items.len())]
    }

    /// Returns true or false.
    pub fn bool(&mut self) -> bool {
        self.one_in(2)
    }
}
