//! docs/CALLS.md: lists of calls as words, and answers as text.

mod decode;
mod encode;
mod read;
mod text;

pub use decode::decode;
pub use encode::{bytes, encode, encode_given};
pub use read::Line;
pub use text::{built_line, given_line, line, plan_line, refused_build_line};
