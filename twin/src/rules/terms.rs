/// A budget of ticks in each period: 1 ≤ budget ≤ period ≤ 1,000,000.
#[derive(Clone, Copy, Debug, PartialEq, Eq)]
pub struct Terms {
    budget: u32,
    period: u32,
}

impl Terms {
    pub const LONGEST_PERIOD: u32 = 1_000_000;

    /// The terms, or none where they are outside their limits.
    pub fn new(budget: u32, period: u32) -> Option<Self> {
        let within = 1 <= budget && budget <= period && period <= Self::LONGEST_PERIOD;
        within.then_some(Self { budget, period })
    }

    pub fn budget(self) -> u32 {
        self.budget
    }

    pub fn period(self) -> u32 {
        self.period
    }
}

#[cfg(test)]
mod tests {
    use super::*;

    #[test]
    fn limits() {
        assert_eq!(Terms::new(0, 5), None);
        assert_eq!(Terms::new(6, 5), None);
        assert_eq!(Terms::new(1, 1_000_001), None);
        assert!(Terms::new(1_000_000, 1_000_000).is_some());
    }
}
