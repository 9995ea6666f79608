//! The original, driven in two ways: as whole runs through its public interface, and call by call
//! through the accessors behind the copy of its source.
//!
//! What exists only in document 01 is decided by the model's checks and said to be so: `Origin`.

mod build;
mod convert;
mod oracle;
mod plan;
mod process;
mod room;
mod view;
mod whole;

pub use build::{build, Runtime};
pub use convert::{refusal, tick};
pub use oracle::Oracle;
pub use plan::{plan, Planned};
pub use process::Scripted;
pub use room::schedule_initial;
pub use whole::{run_whole, Ran, Whole};

/// Who gave an answer.
#[derive(Clone, Copy, Debug, Eq, PartialEq)]
pub enum Origin {
    /// The original.
    Rust,
    /// The documents alone: the original has no such call or refusal.
    Rules,
}
