//! From the bytes of a plan to the lines that the bench prints of it.

use std::fmt::{self, Write};

use crate::plan::{Call, Event, Plan};
use crate::rules::{Admitted, Departure, Engine, Refusal, State, Woken};

/// The report of a plan; each line ends with a line feed.
pub fn report(bytes: &[u8]) -> String {
    let mut text = String::new();
    let written = match Plan::read(bytes) {
        Ok(plan) => write_run(&plan, &mut text),
        Err(fault) => writeln!(text, "{fault}"),
    };
    written.expect("a string takes all that is written");
    text
}

fn write_run(plan: &Plan, text: &mut String) -> fmt::Result {
    let mut engine = plan.header.engine();
    if let Err(refusal) = write_events(plan, &mut engine, text)? {
        writeln!(text, "{} deal = {refusal}", engine.clock())?;
    }
    for core in 0..engine.core_count() {
        let (live, departed) = engine.parts(core).expect("the core is there");
        writeln!(text, "core {core} {live} {departed}")?;
    }
    let mut live: Vec<_> = engine.reservations().collect();
    live.sort_unstable_by_key(|reservation| reservation.number);
    for reservation in live {
        writeln!(text, "res {} ran {}", reservation.number, reservation.ran)?;
    }
    Ok(())
}

/// Writes a line for each event, up to a deal that is refused.
fn write_events(
    plan: &Plan,
    engine: &mut Engine,
    text: &mut String,
) -> Result<Result<(), Refusal>, fmt::Error> {
    for &Event { gap, call } in &plan.events {
        if let Err(refusal) = pass(engine, gap) {
            return Ok(Err(refusal));
        }
        write!(text, "{} {call} = ", engine.clock())?;
        match make(engine, call) {
            Ok(answer) => writeln!(text, "{answer}")?,
            Err(refusal) => writeln!(text, "{refusal}")?,
        }
    }
    if let Err(refusal) = pass(engine, plan.end_gap) {
        return Ok(Err(refusal));
    }
    writeln!(text, "{} end", engine.clock())?;
    Ok(Ok(()))
}

/// Deals and settles this many ticks.
pub fn pass(engine: &mut Engine, ticks: u32) -> Result<(), Refusal> {
    for _ in 0..ticks {
        let round = engine.deal()?;
        engine.settle(round).map_err(|(refusal, _)| refusal)?;
    }
    Ok(())
}

/// The answer of a call that is accepted.
#[derive(Clone, Copy, Debug, PartialEq, Eq)]
pub enum Answer {
    Admitted(Admitted),
    Woken(Woken),
    /// The budget left.
    Rested(u32),
    Departed(Departure),
}

pub fn make(engine: &mut Engine, call: Call) -> Result<Answer, Refusal> {
    match call {
        Call::Admit { budget, period } => engine.admit(budget, period).map(Answer::Admitted),
        Call::Wake { number } => engine.wake(number).map(Answer::Woken),
        Call::Rest { number } => engine.rest(number).map(Answer::Rested),
        Call::Leave { number } => engine.leave(number).map(Answer::Departed),
        Call::Move { number, core } => engine.migrate(number, core as usize).map(Answer::Departed),
    }
}

impl fmt::Display for Call {
    fn fmt(&self, f: &mut fmt::Formatter<'_>) -> fmt::Result {
        match self {
            Self::Admit { budget, period } => write!(f, "admit {budget} {period}"),
            Self::Wake { number } => write!(f, "wake {number}"),
            Self::Rest { number } => write!(f, "rest {number}"),
            Self::Leave { number } => write!(f, "leave {number}"),
            Self::Move { number, core } => write!(f, "move {number} {core}"),
        }
    }
}

impl fmt::Display for Answer {
    fn fmt(&self, f: &mut fmt::Formatter<'_>) -> fmt::Result {
        match self {
            Self::Admitted(Admitted { number, core }) => write!(f, "{number} on {core}"),
            Self::Woken(Woken { state: State::Spent, deadline }) => write!(f, "spent {deadline}"),
            Self::Woken(Woken { deadline, .. }) => write!(f, "ready {deadline}"),
            Self::Rested(left) => write!(f, "left {left}"),
            Self::Departed(Departure::Until(tick)) => write!(f, "until {tick}"),
            Self::Departed(Departure::Free) => f.write_str("free"),
        }
    }
}
