//! Plans made with no regard to what the engine answers.

use super::Random;
use super::header::{header, header_of};
use crate::plan::bits::set_field;
use crate::plan::{Call, EVENT_BYTES, Event, Header, LARGEST_FIELD, LONGEST_PLAN, Plan};
use crate::rules::{CATALOGUE, Measure};

pub fn plan(random: &mut Random) -> Plan {
    let header = header(random);
    let count = random.within(0..=60) as usize;
    plan_of(random, header, count)
}

fn plan_of(random: &mut Random, header: Header, count: usize) -> Plan {
    let events = (0..count)
        .map(|_| Event { gap: gap(random), call: call(random, header.measure) })
        .collect();
    Plan { header, events, end_gap: gap(random) }
}

/// A plan that has as many bytes as it may have, or nearly.
pub fn longest(random: &mut Random) -> Vec<u8> {
    // A header of seven cores has a whole number of event lengths.
    let cores = random.pick(&[7, 7, 1, 8]);
    let header = header_of(random, cores);
    let mut plan = plan_of(random, header, LONGEST_PLAN / EVENT_BYTES - 3);
    plan.events.iter_mut().for_each(|event| event.gap %= 8);
    if random.percent(60) {
        let call = Call::Wake { number: 1 };
        plan.events.resize(LONGEST_PLAN / EVENT_BYTES - 3, Event { gap: 0, call });
    }
    let mut bytes = plan.to_bytes();
    match random.within(0..=3) {
        0 => bytes.resize(LONGEST_PLAN, 0),
        1 => bytes.resize(LONGEST_PLAN + random.within(1..=20) as usize, 0),
        _ => {}
    }
    bytes
}

/// Bytes at random, some of them after a header.
pub fn noise(random: &mut Random) -> Vec<u8> {
    let length = random.within(0..=120) as usize;
    let mut bytes: Vec<u8> = (0..length).map(|_| random.bits() as u8).collect();
    if random.percent(70) {
        let header = header(random);
        let plan = Plan { header, events: Vec::new(), end_gap: 0 };
        let mut start = plan.to_bytes();
        start.truncate(start.len() - EVENT_BYTES);
        let from = start.len();
        start.append(&mut bytes);
        bytes = start;
        let known = random.percent(80);
        for event in bytes[from..].chunks_exact_mut(EVENT_BYTES).filter(|_| known) {
            let kind = random.within(1..=6);
            set_field(event, 0, 4, kind);
            if matches!(kind, 2..=4) && random.percent(90) {
                set_field(event, 44, 20, 0);
            }
        }
    }
    bytes
}

fn gap(random: &mut Random) -> u32 {
    match random.within(0..=9) {
        0..=4 => 0,
        5..=7 => random.within(0..=5),
        8 => random.within(0..=30),
        _ => random.within(0..=100),
    }
}

fn call(random: &mut Random, measure: Measure) -> Call {
    let number = number(random);
    match random.within(0..=9) {
        0..=2 => admit(random, measure),
        3..=5 => Call::Wake { number },
        6 => Call::Rest { number },
        7 => Call::Leave { number },
        _ => Call::Move { number, core: core(random) },
    }
}

fn admit(random: &mut Random, measure: Measure) -> Call {
    let (budget, period) = match (measure, random.within(0..=9)) {
        (_, 0) => (edge(random), edge(random)),
        (Measure::Catalogue, 1..=8) => {
            let (budget, period, _) = random.pick(&CATALOGUE);
            (budget, period)
        }
        _ => {
            let period = random.within(1..=40);
            (random.within(1..=period), period)
        }
    };
    Call::Admit { budget, period }
}

fn number(random: &mut Random) -> u32 {
    if random.percent(95) { random.within(1..=8) } else { edge(random) }
}

fn core(random: &mut Random) -> u32 {
    if random.percent(95) { random.within(0..=8) } else { edge(random) }
}

/// A field's value near a limit.
pub fn edge(random: &mut Random) -> u32 {
    match random.within(0..=5) {
        0 => random.within(0..=2),
        1 => random.within(999_999..=1_000_001),
        2 => LARGEST_FIELD - random.within(0..=1),
        3 => random.within(65_534..=65_546),
        4 => 1 << random.within(0..=19),
        _ => random.within(0..=LARGEST_FIELD),
    }
}
