//! The rules: terms, measures, policies, reservations, and the engine that holds them.

mod engine;
mod ledger;
mod measure;
mod policy;
mod refusal;
mod reservation;
mod terms;

pub use engine::{Admitted, Departure, Engine, LAST_TICK, MOST_CORES, MOST_LIVE, Round, Woken};
pub use ledger::MOST_ENTRIES;
pub use measure::{CATALOGUE, Measure};
pub use policy::Policy;
pub use refusal::Refusal;
pub use reservation::{Reservation, State};
pub use terms::Terms;

/// A time on the engine's clock.
pub type Tick = u64;
