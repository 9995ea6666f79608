//! Listings: document 02, A.1, its second half.
use crate::runtime::Handed;

/// "process, tick as 32 lower-case hexadecimal digits, source"
pub fn event_line(event: &Handed) -> String {
    format!("{} {:032x} {}\n", event.process, event.tick, event.source)
}

/// "`end`, refusal number or 0, GVT in 32 digits, rounds, null messages"
pub fn end_line(number: usize, gvt: u128, rounds: u64, null_messages: u64) -> String {
    format!("end {number} {gvt:032x} {rounds} {null_messages}\n")
}

/// What is answered to the bytes of a file.
#[derive(Clone, Debug, Eq, PartialEq)]
pub enum Answered {
    /// 37, 38 or 39.
    Number(u64),
    /// Lines of events, and the end line with its number.
    Listed { text: String, end: usize },
}
