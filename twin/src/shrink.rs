//! Makes a plan smaller while what was seen of it can still be seen.

use crate::plan::{Call, Plan};
use crate::report::{Answer, make, pass};
use crate::rules::{Admitted, Measure, Policy};

/// The most plans that are tried.
const MOST_TRIALS: usize = 20_000;

/// A smaller plan for which `seen` holds as it does for this one.
pub fn shrink(bytes: &[u8], seen: impl FnMut(&[u8]) -> bool) -> Vec<u8> {
    let mut trials = Trials { seen, left: MOST_TRIALS };
    match Plan::read(bytes) {
        Ok(plan) => trials.shrink_plan(plan).to_bytes(),
        Err(_) => trials.shrink_bytes(bytes.to_vec()),
    }
}

struct Trials<F> {
    seen: F,
    left: usize,
}

impl<F: FnMut(&[u8]) -> bool> Trials<F> {
    fn seen(&mut self, bytes: &[u8]) -> bool {
        if self.left == 0 {
            return false;
        }
        self.left -= 1;
        (self.seen)(bytes)
    }

    /// Changes the plan where the changed one is another and still shows it.
    fn change(&mut self, plan: &mut Plan, change: impl FnOnce(&mut Plan)) -> bool {
        let mut changed = plan.clone();
        change(&mut changed);
        let better = changed != *plan && self.seen(&changed.to_bytes());
        if better {
            *plan = changed;
        }
        better
    }

    fn shrink_plan(&mut self, mut plan: Plan) -> Plan {
        loop {
            let before = plan.clone();
            self.drop_events(&mut plan);
            self.drop_reservations(&mut plan);
            self.simplify_header(&mut plan);
            for index in 0..plan.events.len() {
                for field in [gap_at, a_at, b_at] {
                    self.lower(&mut plan, |plan| field(plan, index));
                }
            }
            self.lower(&mut plan, |plan| Some(&mut plan.end_gap));
            if plan == before {
                return plan;
            }
        }
    }

    fn drop_events(&mut self, plan: &mut Plan) {
        let mut run = plan.events.len();
        while run > 0 {
            let mut at = 0;
            while at < plan.events.len() {
                let end = (at + run).min(plan.events.len());
                let dropped = self.change(plan, |plan| {
                    plan.events.drain(at..end);
                });
                // The gaps are kept where the ticks matter.
                let dropped = dropped
                    || self.change(plan, |plan| {
                        let gap: u32 = plan.events.drain(at..end).map(|event| event.gap).sum();
                        match plan.events.get_mut(at) {
                            Some(next) => next.gap += gap,
                            None => plan.end_gap += gap,
                        }
                    });
                if !dropped {
                    at += run;
                }
            }
            run /= 2;
        }
    }

    /// Drops a reservation with all calls that name it; those admitted later get lower numbers.
    fn drop_reservations(&mut self, plan: &mut Plan) {
        let mut number = 1;
        while let Some(admit) = admit_of(plan, number) {
            let dropped = self.change(plan, |plan| {
                plan.events.remove(admit);
                plan.events.retain(|event| number_of(event.call) != Some(number));
                for index in 0..plan.events.len() {
                    if number_of(plan.events[index].call).is_some_and(|other| other > number) {
                        *a_at(plan, index).expect("a call that names a reservation has it") -= 1;
                    }
                }
            });
            number += u32::from(!dropped);
        }
    }

    fn simplify_header(&mut self, plan: &mut Plan) {
        self.change(plan, |plan| plan.header.measure = Measure::Rounded);
        self.change(plan, |plan| plan.header.policy = Policy::FirstFit);
        let mut core = plan.header.figures.len();
        while core > 0 {
            core -= 1;
            if plan.header.figures.len() > 1 {
                self.change(plan, |plan| {
                    plan.header.figures.remove(core);
                });
            }
        }
        for core in 0..plan.header.figures.len() {
            self.change(plan, |plan| plan.header.figures[core] = 1_000);
        }
        for start in [0, plan.header.start / 2, plan.header.start.saturating_sub(1)] {
            if start < plan.header.start {
                self.change(plan, |plan| plan.header.start = start);
            }
        }
    }

    /// Lowers a number of the plan as far as can be.
    fn lower(&mut self, plan: &mut Plan, number: impl Fn(&mut Plan) -> Option<&mut u32>) {
        while let Some(value) = number(plan).map(|value| *value) {
            let lower = [0, value / 2, value - value / 4, value.saturating_sub(1)];
            let lowered = lower.into_iter().filter(|&lower| lower < value).any(|lower| {
                self.change(plan, |plan| {
                    if let Some(value) = number(plan) {
                        *value = lower;
                    }
                })
            });
            if !lowered {
                return;
            }
        }
    }

    fn shrink_bytes(&mut self, mut bytes: Vec<u8>) -> Vec<u8> {
        loop {
            let before = bytes.clone();
            let mut run = bytes.len();
            while run > 0 {
                let mut at = 0;
                while at < bytes.len() {
                    let mut shorter = bytes.clone();
                    shorter.drain(at..(at + run).min(bytes.len()));
                    if self.seen(&shorter) {
                        bytes = shorter;
                    } else {
                        at += run;
                    }
                }
                run /= 2;
            }
            for at in 0..bytes.len() {
                for lower in [0, bytes[at] & 0xF0, bytes[at] & 0x0F, bytes[at] / 2] {
                    let old = bytes[at];
                    bytes[at] = lower;
                    if lower >= old || !self.seen(&bytes) {
                        bytes[at] = old;
                    }
                }
            }
            if bytes == before {
                return bytes;
            }
        }
    }
}

/// The event that admits this number.
fn admit_of(plan: &Plan, number: u32) -> Option<usize> {
    let mut engine = plan.header.engine();
    for (index, event) in plan.events.iter().enumerate() {
        pass(&mut engine, event.gap).ok()?;
        if let Ok(Answer::Admitted(Admitted { number: given, .. })) = make(&mut engine, event.call)
            && given == number
        {
            return Some(index);
        }
    }
    None
}

/// The number of the reservation that a call names.
fn number_of(call: Call) -> Option<u32> {
    match call {
        Call::Admit { .. } => None,
        Call::Wake { number }
        | Call::Rest { number }
        | Call::Leave { number }
        | Call::Move { number, .. } => Some(number),
    }
}

fn gap_at(plan: &mut Plan, index: usize) -> Option<&mut u32> {
    Some(&mut plan.events[index].gap)
}

fn a_at(plan: &mut Plan, index: usize) -> Option<&mut u32> {
    match &mut plan.events[index].call {
        Call::Admit { budget: a, .. }
        | Call::Wake { number: a }
        | Call::Rest { number: a }
        | Call::Leave { number: a }
        | Call::Move { number: a, .. } => Some(a),
    }
}

fn b_at(plan: &mut Plan, index: usize) -> Option<&mut u32> {
    match &mut plan.events[index].call {
        Call::Admit { period: b, .. } | Call::Move { core: b, .. } => Some(b),
        Call::Wake { .. } | Call::Rest { .. } | Call::Leave { .. } => None,
    }
}

#[cfg(test)]
mod tests {
    use super::*;
    use crate::random;
    use crate::report::report;

    /// The shortest plans with these lines have as many records as are told.
    #[test]
    fn plans_become_short() {
        for (line, most_events) in
            [(" = spent ", 4), (" = refused 18\n", 3), (" = refused 21\n", 3), (" = until ", 3)]
        {
            let seen = |bytes: &[u8]| report(bytes).contains(line);
            let found = (0..).map(|index| random::plan(7, index).1).find(|bytes| seen(bytes));
            let shrunk = shrink(&found.unwrap(), seen);
            assert!(seen(&shrunk));
            let plan = Plan::read(&shrunk).unwrap();
            assert!(plan.events.len() <= most_events, "{plan:?}");
        }
    }

    #[test]
    fn damaged_plans_become_short() {
        let seen = |bytes: &[u8]| report(bytes).starts_with("plan fault 35 ");
        let found = (0..).map(|index| random::plan(7, index).1).find(|bytes| seen(bytes));
        let shrunk = shrink(&found.unwrap(), seen);
        assert!(seen(&shrunk));
        // The longest header and one byte.
        assert!(shrunk.len() <= 18, "{shrunk:?}");
    }
}
