//! Damage to the bytes of a plan.

use super::Random;
use super::blind::edge;
use crate::plan::bits::set_field;
use crate::plan::{EVENT_BYTES, Plan};

/// The bits of the header before the figures.
const FIGURES: usize = 56;

pub fn damage(random: &mut Random, bytes: &mut Vec<u8>) {
    let times = random.pick(&[1, 1, 1, 1, 2, 3]);
    for _ in 0..times {
        match random.within(0..=19) {
            0..=2 => cut(random, bytes),
            3..=4 => append(random, bytes),
            5..=7 => flip(random, bytes),
            8..=11 => spoil_header(random, bytes),
            12..=17 => spoil_event(random, bytes),
            18 => shift(random, bytes),
            _ => shuffle(random, bytes),
        }
    }
}

/// The bytes of the header, as the number of cores in it says.
fn header_length(bytes: &[u8]) -> usize {
    let cores = bytes.get(2).map_or(0, |byte| usize::from(byte >> 4));
    (FIGURES + 10 * cores).div_ceil(8)
}

fn cut(random: &mut Random, bytes: &mut Vec<u8>) {
    let length = bytes.len();
    let events = length.saturating_sub(header_length(bytes)) / EVENT_BYTES;
    let kept = match random.within(0..=3) {
        0 => random.below(length + 1),
        1 => length.saturating_sub(random.within(1..=9) as usize),
        2 => random.below(header_length(bytes) + 2),
        _ => header_length(bytes) + EVENT_BYTES * random.below(events + 1),
    };
    bytes.truncate(kept);
}

fn append(random: &mut Random, bytes: &mut Vec<u8>) {
    let end = Plan { header: super::header::header(random), events: Vec::new(), end_gap: 1 };
    match random.within(0..=2) {
        0 => bytes.resize(bytes.len() + random.within(1..=9) as usize, 0),
        1 => bytes.extend((0..=random.within(0..=9)).map(|_| random.bits() as u8)),
        _ => bytes.extend(&end.to_bytes()[header_length(&end.to_bytes())..]),
    }
}

fn flip(random: &mut Random, bytes: &mut [u8]) {
    if bytes.is_empty() {
        return;
    }
    for _ in 0..random.within(1..=4) {
        let byte = random.below(bytes.len());
        bytes[byte] ^= 1 << random.below(8);
    }
}

fn spoil_header(random: &mut Random, bytes: &mut [u8]) {
    let length = header_length(bytes);
    if bytes.len() < length || length * 8 <= FIGURES {
        return;
    }
    let cores = usize::from(bytes[2] >> 4);
    let figures_end = FIGURES + 10 * cores;
    match random.within(0..=9) {
        0 => set_field(bytes, random.below(12), 1, random.within(0..=1)),
        1 => set_field(bytes, 12, 4, random.within(0..=15)),
        2 => set_field(bytes, 16, 4, random.pick(&[0, 1, 8, 9, 10, 15])),
        3 => set_field(bytes, 20, 1, random.within(0..=1)),
        4 => set_field(bytes, 21, 2, random.within(0..=3)),
        5 => set_field(bytes, 23, 1, 1),
        6 => {
            let start = random.pick(&[4_000_000_000, 4_000_000_001, u32::MAX, 1 << 31]);
            set_field(bytes, 24, 32, start);
        }
        7..=8 => {
            let figure = random.pick(&[0, 1, 1_000, 1_001, 1_023]);
            set_field(bytes, FIGURES + 10 * random.below(cores), 10, figure);
        }
        _ if !figures_end.is_multiple_of(8) => {
            let filling = 8 * length - figures_end;
            set_field(bytes, figures_end + random.below(filling), 1, 1);
        }
        _ => {}
    }
}

fn spoil_event(random: &mut Random, bytes: &mut [u8]) {
    let Some((_, events)) = bytes.split_at_mut_checked(header_length(bytes)) else { return };
    if events.len() < EVENT_BYTES {
        return;
    }
    let at = random.below(events.len() / EVENT_BYTES) * EVENT_BYTES;
    let last = events.len() - EVENT_BYTES;
    match random.within(0..=7) {
        0 => set_field(&mut events[at..], 0, 4, random.pick(&[0, 7, 8, 14, 15])),
        1 => set_field(&mut events[at..], 0, 4, random.within(1..=6)),
        2 => set_field(&mut events[at..], 4, 20, edge(random)),
        3 => set_field(&mut events[at..], 24, 20, edge(random)),
        4 => set_field(&mut events[at..], 44, 20, edge(random)),
        5 => set_field(&mut events[at..], 44 + random.below(20), 1, 1),
        6 => set_field(&mut events[last..], 24 + random.below(40), 1, 1),
        _ => set_field(&mut events[last..], 0, 4, random.within(1..=5)),
    }
}

/// Puts a byte in or takes one out.
fn shift(random: &mut Random, bytes: &mut Vec<u8>) {
    let at = random.below(bytes.len() + 1);
    if random.percent(50) || at == bytes.len() {
        bytes.insert(at, random.bits() as u8);
    } else {
        bytes.remove(at);
    }
}

/// Exchanges two events, the end record perhaps among them.
fn shuffle(random: &mut Random, bytes: &mut [u8]) {
    let Some((_, events)) = bytes.split_at_mut_checked(header_length(bytes)) else { return };
    let count = events.len() / EVENT_BYTES;
    if count < 2 {
        return;
    }
    let (first, second) = (random.below(count), random.below(count));
    for byte in 0..EVENT_BYTES {
        events.swap(first * EVENT_BYTES + byte, second * EVENT_BYTES + byte);
    }
}
