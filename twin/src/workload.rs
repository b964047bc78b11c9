//! Plans to be measured.

use crate::plan::bits::set_field;
use crate::plan::{Call, EVENT_BYTES, Event, Header, LONGEST_PLAN, Plan};
use crate::rules::{MOST_ENTRIES, MOST_LIVE, Measure, Policy};

/// A number of cores and of live reservations, spread evenly.
#[derive(Clone, Copy, Debug, PartialEq, Eq)]
pub struct Load {
    pub name: &'static str,
    pub cores: usize,
    pub live: usize,
    /// Whether all are awake, or every second one on each core; where there is one, it rests.
    pub all_awake: bool,
    /// Whether the ledger has as many entries as it can hold.
    pub full_ledger: bool,
}

/// The loads that are measured.
pub const LOADS: [Load; 6] = [
    Load { name: "1x1", cores: 1, live: 1, all_awake: true, full_ledger: false },
    Load { name: "1x1-rests", cores: 1, live: 1, all_awake: false, full_ledger: false },
    Load { name: "4x16", cores: 4, live: 16, all_awake: true, full_ledger: false },
    Load { name: "4x16-half", cores: 4, live: 16, all_awake: false, full_ledger: false },
    Load { name: "8x64", cores: 8, live: 64, all_awake: true, full_ledger: true },
    Load { name: "8x64-half", cores: 8, live: 64, all_awake: false, full_ledger: true },
];

/// The terms of the reservations on a core, each a tenth of it.
const TERMS: [(u32, u32); 8] =
    [(1, 10), (2, 20), (5, 50), (10, 100), (4, 40), (8, 80), (20, 200), (3, 30)];

/// After as many ticks all deadlines stand to one another as before.
pub const CYCLE: u32 = 1_200;

/// The longest gap in which no ledger entry lapses.
pub const LONGEST_GAP: u32 = 999_000;

impl Load {
    pub fn named(name: &str) -> Option<Self> {
        LOADS.into_iter().find(|load| load.name == name)
    }

    /// A plan that makes the load and then deals this many ticks.
    pub fn plan(&self, gap: u32) -> Plan {
        let mut events = Vec::new();
        let mut add = |gap, call| events.push(Event { gap, call });
        let mut last_number = 0;
        if self.full_ledger {
            // Each runs its one tick and leaves; its core counts it for nearly a million more.
            for _ in 0..MOST_ENTRIES / MOST_LIVE {
                let numbers = last_number + 1..=last_number + MOST_LIVE as u32;
                for number in numbers.clone() {
                    add(0, Call::Admit { budget: 1, period: 1_000_000 });
                    add(0, Call::Wake { number });
                }
                let mut gap = MOST_LIVE as u32;
                for number in numbers {
                    add(gap, Call::Leave { number });
                    gap = 0;
                }
                last_number += MOST_LIVE as u32;
            }
        }
        // Four fifths of each core are reserved.
        let on_each = self.live / self.cores;
        for index in 0..self.live {
            let rank = index / self.cores;
            let (budget, period) = TERMS[rank];
            let budget = budget * (8 / on_each) as u32;
            add(0, Call::Admit { budget, period });
            last_number += 1;
            if self.all_awake || rank % 2 == 1 {
                add(0, Call::Wake { number: last_number });
            }
        }
        // A worst fit puts equal shares on the cores in turn.
        let header = Header {
            measure: Measure::Rounded,
            policy: Policy::WorstFit,
            start: 0,
            figures: vec![1_000; self.cores],
        };
        Plan { header, events, end_gap: gap }
    }
}

/// The most records of a plan of [`damaged_at_its_end`].
pub const MOST_RECORDS: usize = LONGEST_PLAN / EVENT_BYTES - 2;

/// A plan of this many records, whose last one has an unknown kind, so that it is read whole and
/// not run.
pub fn damaged_at_its_end(records: usize) -> Vec<u8> {
    let calls = [
        Call::Admit { budget: 5, period: 10 },
        Call::Wake { number: 1 },
        Call::Move { number: 1, core: 1 },
        Call::Rest { number: 1 },
        Call::Leave { number: 1 },
    ];
    let events = (0..records - 1).map(|index| Event { gap: 1, call: calls[index % calls.len()] });
    // A header of seven cores has the length of two records.
    let header = Header {
        measure: Measure::Rounded,
        policy: Policy::FirstFit,
        start: 0,
        figures: vec![1_000; 7],
    };
    let mut bytes = Plan { header, events: events.collect(), end_gap: 0 }.to_bytes();
    let last = bytes.len() - EVENT_BYTES;
    set_field(&mut bytes[last..], 0, 4, 7);
    bytes
}

#[cfg(test)]
mod tests {
    use super::*;
    use crate::report::{make, pass, report};
    use crate::rules::State;

    #[test]
    fn loads_are_as_told() {
        for load in LOADS {
            let plan = load.plan(LONGEST_GAP);
            let mut engine = plan.header.engine();
            for event in &plan.events {
                pass(&mut engine, event.gap).unwrap();
                make(&mut engine, event.call).unwrap();
            }
            pass(&mut engine, plan.end_gap).unwrap();
            assert_eq!(engine.reservations().count(), load.live);
            let awake = engine.reservations().filter(|it| it.state != State::Resting).count();
            assert_eq!(awake, if load.all_awake { load.live } else { load.live / 2 });
            assert_eq!(engine.entries(), if load.full_ledger { MOST_ENTRIES } else { 0 });
            for core in 0..load.cores {
                let on_it = engine.reservations().filter(|it| it.core == core).count();
                assert_eq!(on_it, load.live / load.cores);
            }
        }
    }

    #[test]
    fn the_last_record_is_at_fault() {
        let bytes = damaged_at_its_end(MOST_RECORDS);
        assert_eq!(bytes.len(), LONGEST_PLAN);
        assert_eq!(report(&bytes), "plan fault 35 at 65528 record 8190 in record\n");
    }
}
