//! Random plans, biased to the edges of the rules. A seed and an index always give the same plan.

mod blind;
mod damage;
mod guided;
mod header;

use std::ops::RangeInclusive;

use crate::plan::{LARGEST_FIELD, Plan};

/// A small generator of random numbers, splitmix64.
#[derive(Clone, Debug)]
pub struct Random(u64);

impl Random {
    pub fn new(seed: u64) -> Self {
        Self(seed)
    }

    pub fn bits(&mut self) -> u64 {
        self.0 = self.0.wrapping_add(0x9E37_79B9_7F4A_7C15);
        let mut bits = self.0;
        bits = (bits ^ (bits >> 30)).wrapping_mul(0xBF58_476D_1CE4_E5B9);
        bits = (bits ^ (bits >> 27)).wrapping_mul(0x94D0_49BB_1331_11EB);
        bits ^ (bits >> 31)
    }

    /// A number below `end`, which is not zero.
    pub fn below(&mut self, end: usize) -> usize {
        (self.bits() % end as u64) as usize
    }

    pub fn within(&mut self, range: RangeInclusive<u32>) -> u32 {
        let (least, most) = range.into_inner();
        least + (self.bits() % (u64::from(most - least) + 1)) as u32
    }

    /// True `times` in a hundred.
    pub fn percent(&mut self, times: u32) -> bool {
        self.within(0..=99) < times
    }

    /// True once in `times`.
    pub fn once_in(&mut self, times: u32) -> bool {
        self.within(1..=times) == 1
    }

    pub fn pick<T: Copy>(&mut self, choices: &[T]) -> T {
        choices[self.below(choices.len())]
    }
}

/// How a plan was made.
#[derive(Clone, Copy, Debug, PartialEq, Eq, Hash)]
pub enum Sort {
    /// Call by call beside an engine, so that most calls are accepted.
    Guided,
    /// Fields at random within the layout.
    Blind,
    /// A plan of the other sorts, damaged.
    Damaged,
    /// Bytes at random, some after a header.
    Noise,
    /// Near the most bytes of a plan.
    Longest,
}

impl Sort {
    pub fn name(self) -> &'static str {
        match self {
            Self::Guided => "guided",
            Self::Blind => "blind",
            Self::Damaged => "damaged",
            Self::Noise => "noise",
            Self::Longest => "longest",
        }
    }
}

/// The plan of this seed and index.
pub fn plan(seed: u64, index: u64) -> (Sort, Vec<u8>) {
    let mut random = Random::new(Random::new(seed).bits() ^ Random::new(!index).bits());
    let random = &mut random;
    let sort = match random.within(0..=9_999) {
        0..=6_399 => Sort::Guided,
        6_400..=7_399 => Sort::Blind,
        7_400..=9_497 => Sort::Damaged,
        9_498..=9_997 => Sort::Noise,
        _ => Sort::Longest,
    };
    // A few plans may take long.
    let ticks = if random.once_in(20_000) { LARGEST_FIELD } else { 5_000 };
    let bytes = match sort {
        Sort::Guided => guided::plan(random, ticks).to_bytes(),
        Sort::Blind => blind::plan(random).to_bytes(),
        Sort::Damaged => {
            let mut bytes = match random.percent(70) {
                true => guided::short_plan(random, ticks).to_bytes(),
                false => blind::plan(random).to_bytes(),
            };
            damage::damage(random, &mut bytes);
            bytes
        }
        Sort::Noise => blind::noise(random),
        Sort::Longest => blind::longest(random),
    };
    (sort, limit_ticks(bytes, ticks))
}

/// Shortens the gaps of a plan that would take more ticks.
fn limit_ticks(bytes: Vec<u8>, most: u32) -> Vec<u8> {
    let Ok(mut plan) = Plan::read(&bytes) else { return bytes };
    let mut left = most;
    let mut changed = false;
    let gaps = plan.events.iter_mut().map(|event| &mut event.gap);
    for gap in gaps.chain([&mut plan.end_gap]) {
        if *gap > left {
            *gap %= 4;
            changed = true;
        }
        left = left.saturating_sub(*gap);
    }
    if changed { plan.to_bytes() } else { bytes }
}

#[cfg(test)]
mod tests {
    use super::*;

    #[test]
    fn the_same_plan_again() {
        for index in 0..200 {
            assert_eq!(plan(1, index), plan(1, index));
        }
        assert_ne!(plan(1, 0), plan(2, 0));
    }
}
