use std::cmp::Reverse;
use std::collections::BinaryHeap;

use super::ledger::{Entry, Ledger};
use super::{Measure, Policy, Refusal, Reservation, State, Terms, Tick};

/// The most cores of an engine.
pub const MOST_CORES: usize = 8;
/// The most live reservations.
pub const MOST_LIVE: usize = 64;
/// The last tick of the clock.
pub const LAST_TICK: Tick = 4_000_000_000;

const LAST_NUMBER: u32 = 65_535;

/// Admits reservations, places them on cores, and deals the ticks of each core by earliest
/// deadline first.
#[derive(Clone, Debug)]
pub struct Engine {
    measure: Measure,
    policy: Policy,
    clock: Tick,
    cores: Vec<Core>,
    /// The live reservations. One keeps its place for as long as it lives.
    places: Vec<Option<Reservation>>,
    last_number: u32,
    /// The SPENT reservations of all cores.
    spent: Queue,
    ledger: Ledger,
    round_is_out: bool,
}

#[derive(Clone, Debug)]
struct Core {
    bound: u32,
    /// The parts of the live reservations.
    live: u32,
    /// The parts of the ledger's entries.
    departed: u32,
    /// The READY reservations.
    ready: Queue,
    /// The place of the reservation named by the last deal.
    dealt: Option<usize>,
}

/// Reservations by deadline, then number.
type Queue = BinaryHeap<Reverse<Key>>;

#[derive(Clone, Copy, Debug, PartialEq, Eq, PartialOrd, Ord)]
struct Key {
    deadline: Tick,
    number: u32,
    place: usize,
}

/// What a deal hands out and a settle takes back.
#[derive(Debug, PartialEq, Eq)]
#[must_use = "a round must be settled"]
pub struct Round {
    tick: Tick,
}

#[derive(Clone, Copy, Debug, PartialEq, Eq)]
pub struct Admitted {
    pub number: u32,
    pub core: usize,
}

#[derive(Clone, Copy, Debug, PartialEq, Eq)]
pub struct Woken {
    pub state: State,
    pub deadline: Tick,
}

/// What becomes of the parts on a core that a reservation leaves.
#[derive(Clone, Copy, Debug, PartialEq, Eq)]
pub enum Departure {
    /// The core counts them until this tick.
    Until(Tick),
    Free,
}

impl Core {
    fn new(bound: u32) -> Self {
        Self { bound, live: 0, departed: 0, ready: Queue::with_capacity(MOST_LIVE), dealt: None }
    }

    fn room(&self) -> u32 {
        self.bound.saturating_sub(self.live + self.departed)
    }
}

impl Engine {
    /// An engine with one core for each figure.
    pub fn new(
        measure: Measure,
        policy: Policy,
        figures: &[u32],
        start: Tick,
    ) -> Result<Self, Refusal> {
        if !(1..=MOST_CORES).contains(&figures.len()) {
            return Err(Refusal::CoreCount);
        }
        if !figures.iter().all(|figure| (1..=1_000).contains(figure)) {
            return Err(Refusal::Figure);
        }
        if start > LAST_TICK {
            return Err(Refusal::Start);
        }
        Ok(Self {
            measure,
            policy,
            clock: start,
            cores: figures.iter().map(|&figure| Core::new(measure.bound(figure))).collect(),
            places: vec![None; MOST_LIVE],
            last_number: 0,
            spent: Queue::with_capacity(MOST_LIVE),
            ledger: Ledger::new(),
            round_is_out: false,
        })
    }

    pub fn admit(&mut self, budget: u32, period: u32) -> Result<Admitted, Refusal> {
        let terms = Terms::new(budget, period).ok_or(Refusal::Terms)?;
        let parts = self.measure.parts(terms).ok_or(Refusal::NotTaken)?;
        self.check_no_round()?;
        let place = self.places.iter().position(Option::is_none).ok_or(Refusal::TooManyLive)?;
        if self.last_number == LAST_NUMBER {
            return Err(Refusal::NumbersGiven);
        }
        let rooms = self.cores.iter().map(Core::room);
        let core = self.policy.choose(rooms, parts).ok_or(Refusal::NoRoom)?;

        self.last_number += 1;
        let number = self.last_number;
        self.cores[core].live += parts;
        self.places[place] = Some(Reservation {
            number,
            terms,
            parts,
            core,
            left: 0,
            deadline: self.clock,
            ran: 0,
            state: State::Resting,
        });
        Ok(Admitted { number, core })
    }

    pub fn wake(&mut self, number: u32) -> Result<Woken, Refusal> {
        self.check_no_round()?;
        let place = self.place_of(number)?;
        let clock = self.clock;
        let reservation = self.at_mut(place);
        if reservation.state != State::Resting {
            return Err(Refusal::NotResting);
        }
        if !reservation.is_below_share(clock) {
            reservation.fill(clock);
        } else if reservation.left == 0 {
            reservation.state = State::Spent;
        } else {
            reservation.state = State::Ready;
        }
        let Reservation { state, deadline, .. } = *reservation;
        self.enqueue(place);
        Ok(Woken { state, deadline })
    }

    /// Answers the budget left.
    pub fn rest(&mut self, number: u32) -> Result<u32, Refusal> {
        self.check_no_round()?;
        let place = self.place_of(number)?;
        if self.at(place).state == State::Resting {
            return Err(Refusal::Resting);
        }
        self.dequeue(place);
        let reservation = self.at_mut(place);
        reservation.state = State::Resting;
        Ok(reservation.left)
    }

    pub fn leave(&mut self, number: u32) -> Result<Departure, Refusal> {
        self.check_no_round()?;
        let place = self.place_of(number)?;
        let departure = self.departure(place)?;
        self.dequeue(place);
        self.depart(place, departure);
        self.places[place] = None;
        Ok(departure)
    }

    /// The call that the rules name move.
    pub fn migrate(&mut self, number: u32, core: usize) -> Result<Departure, Refusal> {
        let room = self.core(core)?.room();
        self.check_no_round()?;
        let place = self.place_of(number)?;
        let reservation = self.at(place);
        if reservation.core == core {
            return Err(Refusal::SameCore);
        }
        if reservation.state == State::Ready && !reservation.is_below_share(self.clock) {
            return Err(Refusal::Behind);
        }
        let parts = reservation.parts;
        if room < parts {
            return Err(Refusal::NoRoom);
        }
        let departure = self.departure(place)?;
        self.dequeue(place);
        self.depart(place, departure);
        self.at_mut(place).core = core;
        self.cores[core].live += parts;
        self.enqueue(place);
        Ok(departure)
    }

    /// Names for each core the READY reservation that it runs in this tick.
    pub fn deal(&mut self) -> Result<Round, Refusal> {
        self.check_no_round()?;
        if self.clock == LAST_TICK {
            return Err(Refusal::LastTick);
        }
        for core in &mut self.cores {
            core.dealt = core.ready.peek().map(|Reverse(key)| key.place);
        }
        self.round_is_out = true;
        Ok(Round { tick: self.clock })
    }

    /// Charges the reservations dealt and lets the tick pass. Answers the clock; a refusal hands
    /// the round back.
    pub fn settle(&mut self, round: Round) -> Result<Tick, (Refusal, Round)> {
        if !self.round_is_out || round.tick != self.clock {
            return Err((Refusal::NoSuchRound, round));
        }
        self.round_is_out = false;
        for core in &mut self.cores {
            let Some(place) = core.dealt.take() else { continue };
            let reservation = self.places[place].as_mut().expect("one that is dealt is live");
            reservation.left -= 1;
            reservation.ran += 1;
            if reservation.left == 0 {
                reservation.state = State::Spent;
                let key = core.ready.pop().expect("one that is dealt heads its queue");
                self.spent.push(key);
            }
        }
        self.clock += 1;
        while let Some(&Reverse(key)) = self.spent.peek()
            && key.deadline == self.clock
        {
            self.spent.pop();
            self.at_mut(key.place).fill(key.deadline);
            self.enqueue(key.place);
        }
        while let Some(entry) = self.ledger.pop_lapsed(self.clock) {
            self.cores[entry.core].departed -= entry.parts;
        }
        Ok(self.clock)
    }

    pub fn clock(&self) -> Tick {
        self.clock
    }

    pub fn core_count(&self) -> usize {
        self.cores.len()
    }

    pub fn bound(&self, core: usize) -> Result<u32, Refusal> {
        Ok(self.core(core)?.bound)
    }

    /// The parts of the live reservations on a core, and those that it still counts of reservations
    /// that left it.
    pub fn parts(&self, core: usize) -> Result<(u32, u32), Refusal> {
        let core = self.core(core)?;
        Ok((core.live, core.departed))
    }

    /// The number last dealt for a core, none while no round is out.
    pub fn dealt(&self, core: usize) -> Result<Option<u32>, Refusal> {
        Ok(self.core(core)?.dealt.map(|place| self.at(place).number))
    }

    pub fn reservation(&self, number: u32) -> Result<&Reservation, Refusal> {
        Ok(self.at(self.place_of(number)?))
    }

    /// The live reservations, in no order.
    pub fn reservations(&self) -> impl Iterator<Item = &Reservation> {
        self.places.iter().flatten()
    }

    /// The length of the ledger.
    pub fn entries(&self) -> usize {
        self.ledger.len()
    }

    fn check_no_round(&self) -> Result<(), Refusal> {
        if self.round_is_out { Err(Refusal::RoundOut) } else { Ok(()) }
    }

    fn core(&self, core: usize) -> Result<&Core, Refusal> {
        self.cores.get(core).ok_or(Refusal::NoSuchCore)
    }

    fn place_of(&self, number: u32) -> Result<usize, Refusal> {
        let named = |place: &Option<Reservation>| place.is_some_and(|it| it.number == number);
        self.places.iter().position(named).ok_or(Refusal::NotLive)
    }

    fn at(&self, place: usize) -> &Reservation {
        self.places[place].as_ref().expect("a live reservation is there")
    }

    fn at_mut(&mut self, place: usize) -> &mut Reservation {
        self.places[place].as_mut().expect("a live reservation is there")
    }

    /// Puts a reservation into the queue of its state.
    fn enqueue(&mut self, place: usize) {
        let &Reservation { number, deadline, core, state, .. } = self.at(place);
        let key = Reverse(Key { deadline, number, place });
        match state {
            State::Ready => self.cores[core].ready.push(key),
            State::Spent => self.spent.push(key),
            State::Resting => {}
        }
    }

    /// Takes a reservation out of the queue of its state.
    fn dequeue(&mut self, place: usize) {
        let &Reservation { core, state, .. } = self.at(place);
        let others = |Reverse(key): &Reverse<Key>| key.place != place;
        match state {
            State::Ready => self.cores[core].ready.retain(others),
            State::Spent => self.spent.retain(others),
            State::Resting => {}
        }
    }

    /// What is due where a reservation leaves its core now.
    fn departure(&self, place: usize) -> Result<Departure, Refusal> {
        let lapse_tick = self.at(place).lapse_tick();
        if lapse_tick <= self.clock {
            Ok(Departure::Free)
        } else if self.ledger.is_full() {
            Err(Refusal::LedgerFull)
        } else {
            Ok(Departure::Until(lapse_tick))
        }
    }

    /// Turns the live parts of a reservation on its core into departed parts or free ones.
    fn depart(&mut self, place: usize, departure: Departure) {
        let &Reservation { number, parts, core, .. } = self.at(place);
        self.cores[core].live -= parts;
        if let Departure::Until(lapse_tick) = departure {
            self.cores[core].departed += parts;
            self.ledger.push(Entry { lapse_tick, number, core, parts });
        }
    }
}

#[cfg(test)]
mod tests {
    use super::*;

    fn engine(figures: &[u32]) -> Engine {
        Engine::new(Measure::Rounded, Policy::FirstFit, figures, 0).unwrap()
    }

    fn pass(engine: &mut Engine, ticks: u32) {
        for _ in 0..ticks {
            let round = engine.deal().unwrap();
            engine.settle(round).unwrap();
        }
    }

    #[test]
    fn making_is_refused() {
        let refusal = |figures: &[u32], start| {
            Engine::new(Measure::Rounded, Policy::FirstFit, figures, start).err()
        };
        assert_eq!(refusal(&[], 0), Some(Refusal::CoreCount));
        assert_eq!(refusal(&[0; 9], 0), Some(Refusal::CoreCount));
        assert_eq!(refusal(&[1, 0], LAST_TICK + 1), Some(Refusal::Figure));
        assert_eq!(refusal(&[1_001], 0), Some(Refusal::Figure));
        assert_eq!(refusal(&[1_000], LAST_TICK + 1), Some(Refusal::Start));
        assert_eq!(refusal(&[1_000; 8], LAST_TICK), None);
    }

    #[test]
    fn while_a_round_is_out() {
        let mut engine = engine(&[1_000, 1_000]);
        engine.admit(1, 2).unwrap();
        engine.wake(1).unwrap();
        let round = engine.deal().unwrap();
        assert_eq!(engine.dealt(0), Ok(Some(1)));
        assert_eq!(engine.dealt(1), Ok(None));
        assert_eq!(engine.dealt(2), Err(Refusal::NoSuchCore));
        assert_eq!(engine.admit(0, 2), Err(Refusal::Terms));
        assert_eq!(engine.admit(1, 2), Err(Refusal::RoundOut));
        assert_eq!(engine.wake(9), Err(Refusal::RoundOut));
        assert_eq!(engine.rest(9), Err(Refusal::RoundOut));
        assert_eq!(engine.leave(9), Err(Refusal::RoundOut));
        assert_eq!(engine.migrate(9, 2), Err(Refusal::NoSuchCore));
        assert_eq!(engine.migrate(9, 1), Err(Refusal::RoundOut));
        assert_eq!(engine.deal(), Err(Refusal::RoundOut));
        assert_eq!(engine.settle(round), Ok(1));
        assert_eq!(engine.dealt(0), Ok(None));
    }

    #[test]
    fn a_foreign_round_is_handed_back() {
        let (mut late, mut early) = (engine(&[1_000]), engine(&[1_000]));
        pass(&mut late, 1);
        let foreign = late.deal().unwrap();
        let (refusal, foreign) = early.settle(foreign).unwrap_err();
        assert_eq!(refusal, Refusal::NoSuchRound);
        let own = early.deal().unwrap();
        let (refusal, foreign) = early.settle(foreign).unwrap_err();
        assert_eq!(refusal, Refusal::NoSuchRound);
        assert_eq!(early.settle(own), Ok(1));
        assert_eq!(late.settle(foreign), Ok(2));
    }

    #[test]
    fn numbers_run_out() {
        let mut engine = engine(&[1_000]);
        for number in 1..=LAST_NUMBER {
            assert_eq!(engine.admit(1, 1), Ok(Admitted { number, core: 0 }));
            assert_eq!(engine.admit(1, 1), Err(numbers_given_or_no_room(number)));
            assert_eq!(engine.leave(number), Ok(Departure::Free));
        }
        assert_eq!(engine.admit(1, 1), Err(Refusal::NumbersGiven));
    }

    fn numbers_given_or_no_room(number: u32) -> Refusal {
        if number == LAST_NUMBER { Refusal::NumbersGiven } else { Refusal::NoRoom }
    }

    #[test]
    fn the_budget_is_run_in_each_period_across_moves() {
        let mut engine = engine(&[1_000, 1_000]);
        engine.admit(3, 7).unwrap();
        engine.admit(1, 2).unwrap();
        engine.wake(1).unwrap();
        engine.wake(2).unwrap();
        for period in 1..=100 {
            pass(&mut engine, 3);
            let _ = engine.migrate(1, period % 2);
            pass(&mut engine, 4);
            assert_eq!(engine.reservation(1).unwrap().ran, 3 * period as u64);
        }
    }
}
