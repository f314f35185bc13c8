//! A small deterministic generator, and the logs made from it. A log depends
//! only on the seed and its index, so that it can be made again anywhere.

mod damaged;
mod edges;
mod guided;
mod plausible;
mod style;

pub use edges::edge_field;

use crate::field::LAST_TAG;

/// Splitmix64.
pub struct Random {
    state: u64,
}

impl Random {
    pub fn new(seed: u64, index: u64) -> Random {
        let mut random = Random { state: seed };
        // Neighbouring seeds would otherwise share most of their logs.
        let scattered = random.next();
        random.state = scattered ^ index.wrapping_mul(0xD134_2543_DE82_EF95);
        random
    }

    pub fn next(&mut self) -> u64 {
        self.state = self.state.wrapping_add(0x9E37_79B9_7F4A_7C15);
        let mut mixed = self.state;
        mixed = (mixed ^ (mixed >> 30)).wrapping_mul(0xBF58_476D_1CE4_E5B9);
        mixed = (mixed ^ (mixed >> 27)).wrapping_mul(0x94D0_49BB_1331_11EB);
        mixed ^ (mixed >> 31)
    }

    /// A number below the bound, which is not 0.
    pub fn below(&mut self, bound: usize) -> usize {
        ((u128::from(self.next()) * bound as u128) >> 64) as usize
    }

    /// A number from the first to the last, both included.
    pub fn between(&mut self, first: usize, last: usize) -> usize {
        first + self.below(last - first + 1)
    }

    pub fn percent(&mut self, share: usize) -> bool {
        self.below(100) < share
    }

    pub fn one_of<T: Copy>(&mut self, choices: &[T]) -> T {
        choices[self.below(choices.len())]
    }

    pub fn byte(&mut self) -> u8 {
        self.next() as u8
    }

    pub fn tag(&mut self) -> u8 {
        self.between(1, usize::from(LAST_TAG)) as u8
    }

    /// A data number: often small, so that assertions meet equal ones, and
    /// often at an end of the range, so that sums wrap.
    pub fn number(&mut self) -> u32 {
        match self.below(8) {
            0..=3 => self.below(4) as u32,
            4 => u32::MAX - self.below(2) as u32,
            5 => 0x8000_0000,
            _ => self.next() as u32,
        }
    }
}

/// The log of a seed at an index.
pub fn make_log(seed: u64, index: u64) -> Vec<u8> {
    let mut random = Random::new(seed, index);
    match random.below(100) {
        0..=59 => guided::guided_log(&mut random),
        60..=79 => damaged::damaged_log(&mut random),
        80..=87 => plausible::plausible_log(&mut random),
        _ => edges::edge_log(&mut random),
    }
}

#[cfg(test)]
mod tests {
    use super::*;
    use crate::judge::Judge;
    use crate::lines::Kind;
    use std::collections::BTreeSet;

    #[test]
    fn splitmix_gives_its_published_numbers() {
        let mut random = Random { state: 1234567 };
        assert_eq!(random.next(), 6457827717110365317);
        assert_eq!(random.next(), 3203168211198807973);
    }

    #[test]
    fn every_kind_of_stop_is_made() {
        let kinds: BTreeSet<Kind> = (0..3000)
            .map(|index| Kind::of_log(&Judge::default(), &make_log(1, index)))
            .collect();
        assert!(kinds.contains(&Kind::Accepted));
        for tag in [2, 4, 5, 6, 7, 9, 10, 14, 15] {
            assert!(kinds.contains(&Kind::RaceBy(tag)), "no race by {tag}");
        }
        for tag in [9, 10, 11, 12, 14, 15] {
            assert!(kinds.contains(&Kind::FailsBy(tag)), "no failure by {tag}");
        }
        // 2 and 15 need short buffers, which a log cannot bring about.
        for number in (1..=13).filter(|&number| number != 2) {
            assert!(
                kinds.contains(&Kind::Refused(number)),
                "no refusal {number}"
            );
        }
    }
}
