//! Scenarios and lists of calls, made from a seed: the same seed gives the same ones.

mod calls;
mod dice;
mod foreign;
mod large;
mod lists;
mod lookaheads;
mod odd;
mod plans;
mod rehearsals;
mod replies;
mod setups;
mod shape;
mod whole;

pub use dice::Dice;
pub use foreign::{foreign, wrong_records, CLAUSES};
pub use lists::{list, stored_list};
pub use lookaheads::lookaheads_alone;
pub use plans::{any_plan, edge_plans, plan, plan_of, plans_beyond};
pub use rehearsals::{rehearsals, Rehearsal};
pub use replies::reply_beyond;
pub use setups::any_setup;
pub use whole::{built_scenario, scenario};
