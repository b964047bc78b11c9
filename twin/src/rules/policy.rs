use std::cmp::Reverse;

/// Chooses a core among those with room enough; ties go to the lowest.
#[derive(Clone, Copy, Debug, PartialEq, Eq)]
pub enum Policy {
    FirstFit,
    WorstFit,
    BestFit,
}

impl Policy {
    /// The core for the parts sought, given the rooms of all cores in core order.
    pub fn choose(self, rooms: impl Iterator<Item = u32>, sought: u32) -> Option<usize> {
        let mut fits = rooms.enumerate().filter(|&(_, room)| room >= sought);
        let choice = match self {
            Self::FirstFit => fits.next(),
            Self::WorstFit => fits.min_by_key(|&(_, room)| Reverse(room)),
            Self::BestFit => fits.min_by_key(|&(_, room)| room),
        };
        choice.map(|(core, _)| core)
    }
}

#[cfg(test)]
mod tests {
    use super::*;

    fn choose(policy: Policy, rooms: &[u32], sought: u32) -> Option<usize> {
        policy.choose(rooms.iter().copied(), sought)
    }

    #[test]
    fn worked_figures() {
        assert_eq!(choose(Policy::FirstFit, &[3, 9, 5], 4), Some(1));
        assert_eq!(choose(Policy::BestFit, &[3, 9, 5], 4), Some(2));
        assert_eq!(choose(Policy::WorstFit, &[3, 9, 5], 4), Some(1));
    }

    #[test]
    fn ties_go_to_the_lowest() {
        for policy in [Policy::FirstFit, Policy::BestFit, Policy::WorstFit] {
            assert_eq!(choose(policy, &[1, 7, 7, 7], 7), Some(1));
            assert_eq!(choose(policy, &[1, 7, 7, 7], 8), None);
        }
    }
}
