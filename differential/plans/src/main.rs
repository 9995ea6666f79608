//! The original as the host of plan files, a model of the rules where edges carry different lookaheads, and ours beside them.
//!
//!     plan-files listing FILE          the listing of a file; exit status 37 to 39 where it has none
//!     plan-files by FILE               who judges it: 'Rust', or 'model' where its edges carry other lookaheads than the plan's
//!     plan-files write SEED N DIR      the first N generated plans, a file each; every other one has edges with different
//!                                      lookaheads
//!     plan-files compare --tool FILE [--driver FILE].. [--program FILE].. [--seconds S] [--count N] [--seed SEED]
//!                                      ours against the judge, on N plans whose edges carry the plan's lookahead and N
//!                                      whose edges do not, or for S seconds
//!
//! Exit status of compare: 0 no difference, 1 a difference, 2 nothing was compared.

mod author;
mod compare;
mod damage;
mod file;
mod judge;
mod listing;
mod ours;
mod random;
mod rules;
mod runtime;
mod shrink;
mod tally;
#[cfg(test)]
mod tests;
#[cfg(test)]
mod two_models;

use compare::{compare, numbered, Work};
use judge::By;
use listing::Answered;
use std::path::Path;
use std::process::ExitCode;
use std::time::Duration;

const SEED: u64 = 20_260_101;

fn listing(path: &str) -> Option<ExitCode> {
    let bytes = std::fs::read(path).ok()?;
    Some(match judge::judge(&bytes).answered {
        Answered::Number(number) => ExitCode::from(number as u8),
        Answered::Listed { text, .. } => {
            print!("{text}");
            ExitCode::SUCCESS
        }
    })
}

fn by(path: &str) -> Option<ExitCode> {
    let bytes = std::fs::read(path).ok()?;
    let by = judge::judge(&bytes).by;
    println!("{}", if by == By::Model { "model" } else { "Rust" });
    Some(ExitCode::SUCCESS)
}

fn write(seed: &str, count: &str, folder: &str) -> Option<ExitCode> {
    let (seed, count): (u64, u64) = (seed.parse().ok()?, count.parse().ok()?);
    for number in 0..count {
        let (bytes, _) = file::encode(&numbered(seed, number));
        std::fs::write(Path::new(folder).join(format!("{number}.plan")), bytes).ok()?;
    }
    Some(ExitCode::SUCCESS)
}

fn work(words: &[&str]) -> Option<Work> {
    let mut work = Work {
        drivers: vec![],
        programs: vec![],
        tool: "tools/plan".into(),
        seed: SEED,
        count: u64::MAX,
        until: None,
    };
    for pair in words.chunks(2) {
        let [option, value] = pair else { return None };
        match *option {
            "--driver" => work.drivers.push(value.into()),
            "--program" => work.programs.push(value.into()),
            "--tool" => work.tool = value.into(),
            "--seed" => work.seed = value.parse().ok()?,
            "--count" => work.count = value.parse().ok()?,
            "--seconds" => work.until = Some(Duration::from_secs(value.parse().ok()?)),
            _ => return None,
        }
    }
    (work.until.is_some() || work.count < u64::MAX).then_some(work)
}

fn main() -> ExitCode {
    let words: Vec<String> = std::env::args().skip(1).collect();
    let words: Vec<&str> = words.iter().map(String::as_str).collect();
    let done = match words[..] {
        ["listing", path] => listing(path),
        ["by", path] => by(path),
        ["write", seed, count, folder] => write(seed, count, folder),
        ["compare", ..] => work(&words[1..]).map(|work| ExitCode::from(u8::from(!compare(&work)))),
        _ => None,
    };
    done.unwrap_or_else(|| {
        println!("usage: plan-files listing FILE | by FILE | write SEED N DIR | compare --tool FILE [--driver FILE].. [--program FILE].. [--seconds S] [--count N] [--seed SEED]");
        ExitCode::from(2)
    })
}
