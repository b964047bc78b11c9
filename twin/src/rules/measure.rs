use super::Terms;

/// Turns terms into parts of a whole core.
#[derive(Clone, Copy, Debug, PartialEq, Eq)]
pub enum Measure {
    /// Takes all terms; the share of the whole, rounded up.
    Rounded,
    /// Takes the rows of [`CATALOGUE`] alone.
    Catalogue,
}

/// The budget, period and parts of each row.
pub const CATALOGUE: [(u32, u32, u32); 10] = [
    (4, 20, 200),
    (10, 50, 220),
    (3, 100, 30),
    (7, 30, 234),
    (1, 3, 334),
    (25, 200, 125),
    (40, 1_000, 40),
    (5, 7, 715),
    (1, 1_000_000, 1),
    (60, 240, 250),
];

impl Measure {
    /// The parts of a whole core.
    pub fn whole(self) -> u32 {
        match self {
            Self::Rounded => 1_048_576,
            Self::Catalogue => 1_000,
        }
    }

    /// The parts of these terms, or none where the measure does not take them.
    pub fn parts(self, terms: Terms) -> Option<u32> {
        match self {
            Self::Rounded => {
                let share = u64::from(terms.budget()) * u64::from(self.whole());
                Some(share.div_ceil(u64::from(terms.period())) as u32)
            }
            Self::Catalogue => CATALOGUE
                .iter()
                .find(|&&(budget, period, _)| (budget, period) == (terms.budget(), terms.period()))
                .map(|&(_, _, parts)| parts),
        }
    }

    /// The bound of a core with this figure, a thousandth of the whole for each one of it.
    pub fn bound(self, figure: u32) -> u32 {
        (u64::from(self.whole()) * u64::from(figure) / 1_000) as u32
    }
}

#[cfg(test)]
mod tests {
    use super::*;

    fn parts(measure: Measure, budget: u32, period: u32) -> Option<u32> {
        measure.parts(Terms::new(budget, period).unwrap())
    }

    #[test]
    fn worked_figures() {
        assert_eq!(parts(Measure::Rounded, 1, 3), Some(349_526));
        assert_eq!(parts(Measure::Rounded, 1, 1_000_000), Some(2));
        assert_eq!(parts(Measure::Catalogue, 5, 7), Some(715));
        assert_eq!(parts(Measure::Catalogue, 1, 4), None);
        assert_eq!(Measure::Rounded.bound(950), 996_147);
    }

    #[test]
    fn parts_cover_the_share() {
        for &(budget, period, parts) in &CATALOGUE {
            assert!(parts * period >= budget * Measure::Catalogue.whole());
        }
    }
}
