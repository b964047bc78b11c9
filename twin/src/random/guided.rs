//! Plans made call by call beside an engine, so that most calls are accepted and the others are
//! refused for a reason that was meant.

use super::Random;
use super::blind::edge;
use super::header::header;
use crate::plan::{Call, Event, LARGEST_FIELD, Plan};
use crate::report::{make, pass};
use crate::rules::{
    CATALOGUE, Engine, MOST_ENTRIES, MOST_LIVE, Measure, Reservation, State, Terms, Tick,
};

/// What most calls of a plan are about.
#[derive(Clone, Copy, PartialEq, Eq)]
enum Mood {
    /// All calls alike.
    Mixed,
    /// Equal periods, so that deadlines tie.
    Ties,
    /// Cores filled up to their bounds.
    Tight,
    /// Reservations that come and go.
    Churn,
    /// Reservations that move.
    Moves,
    /// Reservations that wake and rest.
    Naps,
    /// As many live as there may be.
    Crowd,
    /// As many ledger entries as there may be.
    Ledger,
}

/// The plan so far, and the engine that has made its calls.
struct Guide<'a> {
    random: &'a mut Random,
    mood: Mood,
    plan: Plan,
    engine: Engine,
    /// The ticks that the plan may still take.
    ticks: u32,
    longest_period: u32,
    /// The period of plans with equal periods.
    period: u32,
    /// The calls in a hundred that are meant to be refused.
    bad: u32,
    last_number: u32,
}

pub fn plan(random: &mut Random, ticks: u32) -> Plan {
    let count = match random.within(0..=99) {
        0..=29 => random.within(1..=10),
        30..=79 => random.within(10..=60),
        80..=97 => random.within(60..=150),
        _ => random.within(150..=400),
    };
    plan_of(random, ticks, count as usize)
}

/// A plan to be damaged.
pub fn short_plan(random: &mut Random, ticks: u32) -> Plan {
    let count = random.within(0..=20);
    plan_of(random, ticks, count as usize)
}

fn plan_of(random: &mut Random, ticks: u32, count: usize) -> Plan {
    let mood = match random.within(0..=99) {
        0..=24 => Mood::Mixed,
        25..=39 => Mood::Ties,
        40..=54 => Mood::Tight,
        55..=69 => Mood::Churn,
        70..=84 => Mood::Moves,
        85..=96 => Mood::Naps,
        97..=98 => Mood::Crowd,
        _ => Mood::Ledger,
    };
    let mut header = header(random);
    if matches!(mood, Mood::Crowd | Mood::Ledger) {
        header.figures.iter_mut().for_each(|figure| *figure = (*figure).max(500));
    }
    let longest_period = random.pick(&[4, 10, 30, 30, 100, 300, 1_000_000]);
    let mut guide = Guide {
        mood,
        ticks,
        longest_period,
        period: random.within(1..=longest_period),
        bad: random.pick(&[0, 3, 10, 30]),
        last_number: 0,
        engine: header.engine(),
        plan: Plan { header, events: Vec::new(), end_gap: 0 },
        random,
    };
    match mood {
        Mood::Crowd => guide.crowd(),
        Mood::Ledger => guide.fill_ledger(),
        _ => {}
    }
    for _ in 0..count {
        guide.step();
    }
    guide.plan.end_gap = guide.gap();
    guide.plan
}

impl Guide<'_> {
    /// Adds a call with a gap before it.
    fn step(&mut self) {
        let gap = self.gap();
        self.wait(gap);
        let call = self.call();
        self.push(gap, call);
    }

    /// Lets the engine's ticks pass. At the end of the clock the plan goes on, unheard.
    fn wait(&mut self, gap: u32) {
        self.ticks = self.ticks.saturating_sub(gap);
        let _ = pass(&mut self.engine, gap);
    }

    fn push(&mut self, gap: u32, call: Call) {
        if make(&mut self.engine, call).is_ok() && matches!(call, Call::Admit { .. }) {
            self.last_number += 1;
        }
        self.plan.events.push(Event { gap, call });
    }

    fn now(&mut self, call: Call) {
        self.push(0, call);
    }

    /// A gap that is none, short, or up to where something happens to a reservation.
    fn gap(&mut self) -> u32 {
        let gap = match self.random.within(0..=99) {
            0..=49 => 0,
            50..=69 => self.random.within(1..=3),
            70..=79 => self.random.within(0..=self.longest_period.min(50)),
            80..=97 => self.gap_to_change(),
            _ => self.random.within(0..=3_000),
        };
        if gap <= self.ticks { gap } else { self.random.within(0..=3) }
    }

    /// The ticks to a deadline or a lapse tick of a live reservation, or to just before or after.
    fn gap_to_change(&mut self) -> u32 {
        let clock = self.engine.clock();
        let Some(reservation) = self.one(|_| true) else { return 0 };
        let change = match self.random.within(0..=3) {
            0..=1 => reservation.deadline,
            2 => reservation.lapse_tick(),
            _ => clock + Tick::from(reservation.left),
        };
        let ticks = (change + Tick::from(self.random.within(0..=2))).saturating_sub(clock + 1);
        ticks.min(Tick::from(LARGEST_FIELD)) as u32
    }

    /// A live reservation at random among those meant.
    fn one(&mut self, meant: impl Fn(&Reservation) -> bool) -> Option<Reservation> {
        let count = self.engine.reservations().filter(|it| meant(it)).count();
        if count == 0 {
            return None;
        }
        let index = self.random.below(count);
        self.engine.reservations().filter(|it| meant(it)).nth(index).copied()
    }

    fn call(&mut self) -> Call {
        if self.random.percent(self.bad) {
            return self.bad_call();
        }
        // The weights of admit, wake, rest, leave and move.
        let weights = match self.mood {
            Mood::Mixed => [25, 30, 15, 10, 20],
            Mood::Ties => [25, 45, 15, 5, 10],
            Mood::Tight => [40, 25, 5, 20, 10],
            Mood::Churn => [30, 30, 5, 30, 5],
            Mood::Moves => [15, 25, 10, 5, 45],
            Mood::Naps => [15, 40, 35, 5, 5],
            Mood::Crowd => [30, 25, 15, 10, 20],
            Mood::Ledger => [10, 15, 5, 30, 40],
        };
        for _ in 0..4 {
            let call = match self.weighted(weights) {
                0 => self.good_admit(),
                1 => self.one(|it| it.state == State::Resting).map(wake),
                2 => self.one(|it| it.state != State::Resting).map(rest),
                3 => self.one(|_| true).map(leave),
                _ => self.good_move(),
            };
            if let Some(call) = call {
                return call;
            }
        }
        self.admit()
    }

    /// An index, by weights that come to a hundred.
    fn weighted(&mut self, weights: [u32; 5]) -> usize {
        let mut left = self.random.within(0..=99);
        let here = |&weight: &u32| {
            let here = left < weight;
            left = left.saturating_sub(weight);
            here
        };
        weights.iter().position(here).unwrap_or(0)
    }

    /// Terms for which there is room, or sometimes for which there is none.
    fn good_admit(&mut self) -> Option<Call> {
        let (budget, period) = self.terms();
        let parts = Terms::new(budget, period).and_then(|it| self.plan.header.measure.parts(it))?;
        let fits = (0..self.engine.core_count()).any(|core| self.room(core) >= parts);
        (fits || self.random.percent(20)).then_some(Call::Admit { budget, period })
    }

    /// A move to another core, more often to one that has room.
    fn good_move(&mut self) -> Option<Call> {
        let cores = self.engine.core_count();
        let settled = self.random.percent(70);
        let reservation = self.one(|it| !settled || it.state != State::Ready)?;
        let mut core = self.random.below(cores);
        let mut fits = false;
        for _ in 0..3 {
            fits = core != reservation.core && self.room(core) >= reservation.parts;
            if fits {
                break;
            }
            core = self.random.below(cores);
        }
        let call = Call::Move { number: reservation.number, core: core as u32 };
        (fits || self.random.percent(20)).then_some(call)
    }

    fn room(&self, core: usize) -> u32 {
        let counted = self.engine.parts(core).map_or(0, |(live, departed)| live + departed);
        self.engine.bound(core).map_or(0, |bound| bound.saturating_sub(counted))
    }

    fn admit(&mut self) -> Call {
        let (budget, period) = self.terms();
        Call::Admit { budget, period }
    }

    fn terms(&mut self) -> (u32, u32) {
        match self.plan.header.measure {
            Measure::Catalogue => {
                let (budget, period, _) = self.random.pick(&CATALOGUE);
                (budget, period)
            }
            Measure::Rounded if self.mood == Mood::Tight || self.random.percent(20) => {
                self.tight_terms()
            }
            Measure::Rounded => {
                let period = match self.mood {
                    Mood::Ties => self.period,
                    _ => self.random.within(1..=self.longest_period),
                };
                let most = match self.random.percent(80) {
                    true => period.div_ceil(3),
                    false => period,
                };
                (self.random.within(1..=most), period)
            }
        }
    }

    /// Terms that take the room of a core up to the last part that they can, or just more.
    fn tight_terms(&mut self) -> (u32, u32) {
        let core = self.random.below(self.engine.core_count());
        let room = u64::from(self.room(core));
        let period = match self.random.within(0..=3) {
            0 => 1 << self.random.within(0..=19),
            1 => Terms::LONGEST_PERIOD - self.random.within(0..=10),
            _ => self.random.within(1..=self.longest_period),
        };
        let fits = room * u64::from(period) / u64::from(Measure::Rounded.whole());
        let budget = fits as u32 + u32::from(self.random.percent(30));
        (budget.max(1), period)
    }

    fn bad_call(&mut self) -> Call {
        let number = self.bad_number();
        let any = self.one(|_| true).map_or(1, |it| it.number);
        let cores = self.engine.core_count() as u32;
        match self.random.within(0..=12) {
            0 => Call::Admit { budget: edge(self.random), period: edge(self.random) },
            1 => {
                let period = self.random.within(1..=self.longest_period);
                Call::Admit { budget: period + 1, period }
            }
            2 => {
                let (budget, period, _) = self.random.pick(&CATALOGUE);
                let (more, longer) = self.random.pick(&[(0, 1), (1, 0), (1, 1)]);
                Call::Admit { budget: budget + more, period: period + longer }
            }
            3 => {
                let period = self.random.within(1..=self.longest_period);
                Call::Admit { budget: period, period }
            }
            4 => Call::Wake { number },
            5 => Call::Rest { number },
            6 => Call::Leave { number },
            7 => Call::Move { number, core: self.random.within(0..=cores) },
            8 => self.one(|it| it.state != State::Resting).map_or(Call::Wake { number }, wake),
            9 => self.one(|it| it.state == State::Resting).map_or(Call::Rest { number }, rest),
            10 => {
                let core = self.random.pick(&[cores, cores + 1, 8, 15, 256, 65_536, LARGEST_FIELD]);
                Call::Move { number: any, core }
            }
            11 => {
                let core = self.engine.reservation(any).map_or(0, |it| it.core as u32);
                Call::Move { number: any, core }
            }
            _ => {
                let ready = self.one(|it| it.state == State::Ready);
                let number = ready.map_or(number, |it| it.number);
                Call::Move { number, core: self.random.within(0..=cores - 1) }
            }
        }
    }

    /// A number that is most often not live.
    fn bad_number(&mut self) -> u32 {
        match self.random.within(0..=4) {
            0 => 0,
            1 => self.last_number + 1,
            2 => self.random.within(0..=self.last_number),
            3 => 65_536 + self.last_number,
            _ => edge(self.random),
        }
    }

    /// Small terms with a long period.
    fn small_terms(&mut self) -> Call {
        let (budget, period) = match self.plan.header.measure {
            Measure::Catalogue => (1, 1_000_000),
            Measure::Rounded => (1, self.random.within(300..=2_000)),
        };
        Call::Admit { budget, period }
    }

    /// Admits until there are as many live as there may be, and some more.
    fn crowd(&mut self) {
        let wakes = self.random.percent(70);
        for _ in 0..MOST_LIVE + self.random.below(4) {
            let admit = self.small_terms();
            self.now(admit);
            if wakes && self.random.percent(80) {
                self.now(Call::Wake { number: self.last_number });
            }
        }
    }

    /// Lets spent reservations move and leave until the ledger is full, and some more.
    fn fill_ledger(&mut self) {
        let live = self.random.within(20..=MOST_LIVE as u32);
        let spread = self.engine.core_count() > 1 && self.random.percent(80);
        for _ in 0..6 {
            while self.engine.reservations().count() < live as usize {
                let admit = self.small_terms();
                let before = self.last_number;
                self.now(admit);
                if self.last_number == before {
                    return;
                }
                self.now(Call::Wake { number: self.last_number });
            }
            // Long enough for each of them to run its one tick.
            let gap = live.min(self.ticks);
            self.wait(gap);
            self.push(gap, Call::Wake { number: 0 });
            for _ in 0..live * if spread { 3 } else { 1 } {
                let Some(reservation) = self.one(|it| it.state == State::Spent) else { break };
                let call = match spread && self.random.percent(85) {
                    true => {
                        let core = reservation.core + 1 + self.random.below(7);
                        let core = (core % self.engine.core_count()) as u32;
                        Call::Move { number: reservation.number, core }
                    }
                    false => leave(reservation),
                };
                self.now(call);
                if self.engine.entries() == MOST_ENTRIES && self.random.percent(20) {
                    return;
                }
            }
        }
    }
}

fn wake(reservation: Reservation) -> Call {
    Call::Wake { number: reservation.number }
}

fn rest(reservation: Reservation) -> Call {
    Call::Rest { number: reservation.number }
}

fn leave(reservation: Reservation) -> Call {
    Call::Leave { number: reservation.number }
}
