use super::Random;
use crate::plan::Header;
use crate::rules::{LAST_TICK, MOST_CORES, Measure, Policy, Tick};

pub fn header(random: &mut Random) -> Header {
    let cores = match random.percent(60) {
        true => random.within(1..=3) as usize,
        false => random.within(1..=MOST_CORES as u32) as usize,
    };
    header_of(random, cores)
}

pub fn header_of(random: &mut Random, cores: usize) -> Header {
    Header {
        measure: random.pick(&[Measure::Rounded, Measure::Rounded, Measure::Catalogue]),
        policy: random.pick(&[Policy::FirstFit, Policy::WorstFit, Policy::BestFit]),
        start: start(random),
        figures: figures(random, cores),
    }
}

fn start(random: &mut Random) -> Tick {
    match random.within(0..=99) {
        0..=59 => 0,
        60..=79 => Tick::from(random.within(0..=2_000_000)),
        80..=89 => Tick::from(random.within(0..=LAST_TICK as u32)),
        90..=97 => LAST_TICK - Tick::from(random.within(0..=300)),
        _ => LAST_TICK,
    }
}

fn figures(random: &mut Random, cores: usize) -> Vec<u32> {
    let kind = random.within(0..=9);
    let same = random.pick(&[1_000, 1_000, 950, 500, 100, 2, 1]);
    (0..cores)
        .map(|_| match kind {
            0..=3 => 1_000,
            4..=5 => same,
            6 => random.pick(&[1, 2, 3, 10, 999, 1_000]),
            7 => random.pick(&[250, 500, 750, 1_000]),
            _ => random.within(1..=1_000),
        })
        .collect()
}
