//! Plan files: their fields, the reader, the writer and the faults.

pub mod bits;
mod describe;
mod fault;

use bits::{Reader, Writer};
pub use describe::describe;
pub use fault::{Cause, Fault};

use crate::rules::{Engine, LAST_TICK, MOST_CORES, Measure, Policy, Tick};

/// The most bytes of a plan.
pub const LONGEST_PLAN: usize = 65_536;
/// The bytes of an event.
pub const EVENT_BYTES: usize = 8;
/// The largest gap, A or B of an event.
pub const LARGEST_FIELD: u32 = 0xF_FFFF;

const MARK: u32 = 0xCB5;
const EDITION: u32 = 1;

#[derive(Clone, Debug, PartialEq, Eq)]
pub struct Plan {
    pub header: Header,
    /// The events before the end record.
    pub events: Vec<Event>,
    /// The gap of the end record.
    pub end_gap: u32,
}

#[derive(Clone, Debug, PartialEq, Eq)]
pub struct Header {
    pub measure: Measure,
    pub policy: Policy,
    pub start: Tick,
    /// The figure of each core.
    pub figures: Vec<u32>,
}

#[derive(Clone, Copy, Debug, PartialEq, Eq)]
pub struct Event {
    /// The ticks dealt and settled before the call.
    pub gap: u32,
    pub call: Call,
}

#[derive(Clone, Copy, Debug, PartialEq, Eq)]
pub enum Call {
    Admit { budget: u32, period: u32 },
    Wake { number: u32 },
    Rest { number: u32 },
    Leave { number: u32 },
    Move { number: u32, core: u32 },
}

/// A record after the header.
enum Record {
    Event(Event),
    End { gap: u32 },
}

#[derive(Clone, Copy)]
enum Kind {
    Admit,
    Wake,
    Rest,
    Leave,
    Move,
    End,
}

impl Plan {
    pub fn read(bytes: &[u8]) -> Result<Self, Fault> {
        if bytes.len() > LONGEST_PLAN {
            return Err(Fault { cause: Cause::TooLong, byte: LONGEST_PLAN, record: 0 });
        }
        let mut reader = Reader::new(bytes);
        let header = Header::read(&mut reader)?;
        let mut events = Vec::with_capacity(bytes.len() / EVENT_BYTES);
        loop {
            reader.next_record();
            match Record::read(&mut reader)? {
                Record::Event(event) => events.push(event),
                Record::End { gap } if reader.is_at_end() => {
                    return Ok(Self { header, events, end_gap: gap });
                }
                Record::End { .. } => return Err(reader.fault(Cause::AfterEnd)),
            }
        }
    }

    pub fn to_bytes(&self) -> Vec<u8> {
        let mut writer = Writer::default();
        self.header.write(&mut writer);
        for event in &self.events {
            let (kind, a, b) = match event.call {
                Call::Admit { budget, period } => (1, budget, period),
                Call::Wake { number } => (2, number, 0),
                Call::Rest { number } => (3, number, 0),
                Call::Leave { number } => (4, number, 0),
                Call::Move { number, core } => (5, number, core),
            };
            write_event(&mut writer, kind, event.gap, a, b);
        }
        write_event(&mut writer, 6, self.end_gap, 0, 0);
        writer.finish()
    }
}

impl Header {
    /// An engine as the header says.
    pub fn engine(&self) -> Engine {
        Engine::new(self.measure, self.policy, &self.figures, self.start)
            .expect("the limits of a header are those of the making")
    }

    fn read(reader: &mut Reader) -> Result<Self, Fault> {
        reader.field(12, |mark| if mark == MARK { Ok(()) } else { Err(Cause::Mark) })?;
        reader.field(4, |edition| if edition == EDITION { Ok(()) } else { Err(Cause::Edition) })?;
        let cores = reader.field(4, |cores| within(cores, 1, MOST_CORES as u32))?;
        let measure = reader.field(1, |measure| match measure {
            0 => Ok(Measure::Rounded),
            _ => Ok(Measure::Catalogue),
        })?;
        let policy = reader.field(2, |policy| match policy {
            0 => Ok(Policy::FirstFit),
            1 => Ok(Policy::WorstFit),
            2 => Ok(Policy::BestFit),
            _ => Err(Cause::Range),
        })?;
        reader.field(1, spare)?;
        let start = reader.field(32, |start| within(start, 0, LAST_TICK as u32))?;
        let figures = (0..cores)
            .map(|_| reader.field(10, |figure| within(figure, 1, 1_000)))
            .collect::<Result<_, _>>()?;
        let filling = reader.to_whole_byte();
        if filling > 0 {
            reader.field(filling, spare)?;
        }
        Ok(Self { measure, policy, start: Tick::from(start), figures })
    }

    fn write(&self, writer: &mut Writer) {
        let measure = match self.measure {
            Measure::Rounded => 0,
            Measure::Catalogue => 1,
        };
        let policy = match self.policy {
            Policy::FirstFit => 0,
            Policy::WorstFit => 1,
            Policy::BestFit => 2,
        };
        writer.field(12, MARK);
        writer.field(4, EDITION);
        writer.field(4, self.figures.len() as u32);
        writer.field(1, measure);
        writer.field(2, policy);
        writer.field(1, 0);
        writer.field(32, self.start as u32);
        for &figure in &self.figures {
            writer.field(10, figure);
        }
        writer.fill();
    }
}

impl Record {
    fn read(reader: &mut Reader) -> Result<Self, Fault> {
        let kind = reader.field(4, |kind| match kind {
            1 => Ok(Kind::Admit),
            2 => Ok(Kind::Wake),
            3 => Ok(Kind::Rest),
            4 => Ok(Kind::Leave),
            5 => Ok(Kind::Move),
            6 => Ok(Kind::End),
            _ => Err(Cause::Kind),
        })?;
        let gap = reader.field(20, Ok)?;
        let a = reader.field(20, |a| match kind {
            Kind::End => zero(a),
            _ => Ok(a),
        })?;
        let b = reader.field(20, |b| match kind {
            Kind::Admit | Kind::Move => Ok(b),
            _ => zero(b),
        })?;
        let call = match kind {
            Kind::Admit => Call::Admit { budget: a, period: b },
            Kind::Wake => Call::Wake { number: a },
            Kind::Rest => Call::Rest { number: a },
            Kind::Leave => Call::Leave { number: a },
            Kind::Move => Call::Move { number: a, core: b },
            Kind::End => return Ok(Self::End { gap }),
        };
        Ok(Self::Event(Event { gap, call }))
    }
}

fn write_event(writer: &mut Writer, kind: u32, gap: u32, a: u32, b: u32) {
    writer.field(4, kind);
    for value in [gap, a, b] {
        writer.field(20, value);
    }
}

fn within(value: u32, least: u32, most: u32) -> Result<u32, Cause> {
    if (least..=most).contains(&value) { Ok(value) } else { Err(Cause::Range) }
}

/// Spare and filling bits have to be zero.
fn spare(bits: u32) -> Result<(), Cause> {
    if bits == 0 { Ok(()) } else { Err(Cause::Spare) }
}

fn zero(value: u32) -> Result<u32, Cause> {
    within(value, 0, 0)
}

#[cfg(test)]
mod tests {
    use super::*;

    #[test]
    fn a_plan_comes_back_as_written() {
        for cores in 1..=MOST_CORES {
            let plan = Plan {
                header: Header {
                    measure: Measure::Catalogue,
                    policy: Policy::BestFit,
                    start: LAST_TICK,
                    figures: (0..cores as u32).map(|core| 1_000 - core).collect(),
                },
                events: vec![
                    Event { gap: 0, call: Call::Admit { budget: 1, period: LARGEST_FIELD } },
                    Event { gap: LARGEST_FIELD, call: Call::Wake { number: 1 } },
                    Event { gap: 1, call: Call::Rest { number: 2 } },
                    Event { gap: 2, call: Call::Leave { number: LARGEST_FIELD } },
                    Event { gap: 3, call: Call::Move { number: 3, core: 9 } },
                ],
                end_gap: 7,
            };
            let bytes = plan.to_bytes();
            assert_eq!(Plan::read(&bytes), Ok(plan));
        }
    }
}
