use super::{Terms, Tick};

#[derive(Clone, Copy, Debug, PartialEq, Eq)]
pub enum State {
    /// Wants ticks and has budget left.
    Ready,
    /// Wants ticks and has none left.
    Spent,
    /// Wants no ticks.
    Resting,
}

/// A live reservation: a constant bandwidth server on a core.
#[derive(Clone, Copy, Debug, PartialEq, Eq)]
pub struct Reservation {
    pub number: u32,
    pub terms: Terms,
    pub parts: u32,
    pub core: usize,
    /// The budget left.
    pub left: u32,
    pub deadline: Tick,
    /// The ticks that it has run.
    pub ran: u64,
    pub state: State,
}

impl Reservation {
    /// The 0-lag time brought up to a whole tick.
    pub fn lapse_tick(&self) -> Tick {
        let (budget, period) = (self.terms.budget(), self.terms.period());
        self.deadline - u64::from(self.left) * u64::from(period) / u64::from(budget)
    }

    /// Whether the budget left, spread over the time to the deadline, stays below the share.
    pub fn is_below_share(&self, clock: Tick) -> bool {
        let (budget, period) = (i64::from(self.terms.budget()), i64::from(self.terms.period()));
        let to_deadline = self.deadline as i64 - clock as i64;
        i64::from(self.left) * period < to_deadline * budget
    }

    /// Gives it its whole budget, to be run by a period after this tick.
    pub fn fill(&mut self, from: Tick) {
        self.left = self.terms.budget();
        self.deadline = from + Tick::from(self.terms.period());
        self.state = State::Ready;
    }
}

#[cfg(test)]
mod tests {
    use super::*;

    fn reservation(budget: u32, left: u32) -> Reservation {
        Reservation {
            number: 1,
            terms: Terms::new(budget, 10).unwrap(),
            parts: 1,
            core: 0,
            left,
            deadline: 10,
            ran: 0,
            state: State::Ready,
        }
    }

    #[test]
    fn lapse_ticks() {
        assert_eq!(reservation(3, 1).lapse_tick(), 7);
        assert_eq!(reservation(5, 2).lapse_tick(), 6);
    }

    #[test]
    fn below_the_share() {
        assert!(reservation(5, 2).is_below_share(5));
        assert!(!reservation(5, 3).is_below_share(5));
        assert!(!reservation(5, 2).is_below_share(6));
        assert!(!reservation(5, 0).is_below_share(11));
    }
}
