use std::cmp::Reverse;
use std::collections::BinaryHeap;

use super::Tick;

/// The most entries that a ledger holds.
pub const MOST_ENTRIES: usize = 128;

/// The parts that a core counts until the lapse tick, of a reservation that left it. The order is
/// by lapse tick first.
#[derive(Clone, Copy, Debug, PartialEq, Eq, PartialOrd, Ord)]
pub struct Entry {
    pub lapse_tick: Tick,
    pub number: u32,
    pub core: usize,
    pub parts: u32,
}

#[derive(Clone, Debug)]
pub struct Ledger {
    entries: BinaryHeap<Reverse<Entry>>,
}

impl Ledger {
    pub fn new() -> Self {
        Self { entries: BinaryHeap::with_capacity(MOST_ENTRIES) }
    }

    pub fn len(&self) -> usize {
        self.entries.len()
    }

    pub fn is_full(&self) -> bool {
        self.len() == MOST_ENTRIES
    }

    pub fn push(&mut self, entry: Entry) {
        self.entries.push(Reverse(entry));
    }

    /// Takes out an entry that has lapsed by this tick.
    pub fn pop_lapsed(&mut self, clock: Tick) -> Option<Entry> {
        let &Reverse(entry) = self.entries.peek()?;
        if entry.lapse_tick > clock {
            return None;
        }
        self.entries.pop();
        Some(entry)
    }
}
