//! The rules of document 01, with what document 02 has amended so far, as a plain state machine, definition
//! by definition as in crates/rules/specs, and a list of programs that are wrong in one place each.
//!
//! Ids have 32 bits, ticks 128, counts 64; where the definitions take numbers of any size, nothing
//! here overflows: sums are checked or taken in a wider type.

mod answers;
mod begin;
mod build;
mod calls;
mod foreign;
mod frontiers;
mod hand_back;
mod host;
mod initial;
mod pending;
mod plan;
mod reads;
mod refresh;
mod state;
mod step;
mod variant;

pub use answers::{Answer, Entity, Reading, Refusal, Value};
pub use build::{lookahead_words, Made, Setup};
pub use calls::{Call, Emission, Out};
pub use hand_back::malformed;
pub use host::{with_record, Host, List, Odd, Reply, Scenario, Task};
pub use plan::Laid;
pub use state::{
    Counters, Edge, Event, Message, Payload, State, Stored, MOST, MOST_EDGES, MOST_ENTITIES,
    MOST_PAYLOAD, MOST_PENDING, MOST_PROCESSES, TOP,
};
pub use variant::{Rules, Variant};
