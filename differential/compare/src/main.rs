//! Compares the original with the rules. Where edges have different lookaheads the model of the rules judges
//! alone; of N scenarios that the original judges there go N more of these.
//!
//!     compare quick             some thousand scenarios, and the documents' rehearsals
//!     compare full [N]          N scenarios (a million if not given)
//!     compare slips [N]         every wrong program is noticed within N scenarios
//!     compare store DIR [N [SEED]]  N lists of calls with the original's answers
//!     compare answer FILE       the original's answers to the lists of a file
//!     compare plans PROGRAM [N] our program's answers to the plans of N lists
//!     compare calls PROGRAM [N] our program's answers to the builds and calls of N scenarios
//!     compare runs N PROGRAM..  our programs' runs and the original's own, N scenarios
//!     compare run-slips         wrong answers in runs are noticed
//!     compare call-slips        wrong answers to calls are noticed
//!     compare plan-slips        wrong answers to plans are noticed
//!     compare store-plans DIR   lists of plans, for our program, with the original's answers
//!
//! Exit status: 0 no difference, 1 a difference, 2 nothing was compared.

mod calls;
mod difference;
mod host;
mod judge;
mod limits;
mod lists;
mod plans;
mod program;
mod records;
mod rehearse;
mod run_files;
mod run_slips;
mod runs;
mod shrink;
mod slips;
mod states;
mod store;
mod tally;
mod wholes;
mod work;

use std::path::PathBuf;
use std::process::ExitCode;

const SEED: u64 = 20_260_101;
const QUICK: u64 = 12_000;
const FULL: u64 = 1_000_000;
const SLIPS: u64 = 8_000;
const STORED: u64 = 1_500;
const PLANNED: u64 = 10_000;

/// The number at this place of the arguments, or `otherwise` if there is none.
fn number(words: &[String], at: usize, otherwise: u64) -> Option<u64> {
    words
        .get(at)
        .map_or(Some(otherwise), |word| word.parse().ok())
}

/// What the arguments ask for: whether there was no difference. None if they ask for nothing.
fn carry_out(words: &[String]) -> Option<bool> {
    let first = words.first().map(String::as_str);
    match (first, words.len()) {
        (Some("quick"), 1) => Some(rehearse::rehearse() & work::compare(SEED, QUICK)),
        (Some("full"), 1 | 2) => Some(work::compare(SEED, number(words, 1, FULL)?)),
        (Some("slips"), 1 | 2) => Some(slips::slips(SEED, number(words, 1, SLIPS)?)),
        (Some("store"), 2..=4) => {
            let (count, seed) = (number(words, 2, STORED)?, number(words, 3, SEED)?);
            Some(store::store(words[1].as_ref(), count, seed))
        }
        (Some("plans"), 2 | 3) => {
            let count = number(words, 2, PLANNED)?;
            Some(program::compare(words[1].as_ref(), SEED, count))
        }
        (Some("calls"), 2 | 3) => {
            let count = number(words, 2, PLANNED)?;
            Some(calls::compare(words[1].as_ref(), SEED, count))
        }
        (Some("runs"), 3..) => {
            let programs: Vec<PathBuf> = words[2..].iter().map(PathBuf::from).collect();
            Some(run_files::compare(&programs, SEED, words[1].parse().ok()?))
        }
        (Some("run-slips"), 1) => Some(run_slips::slips(SEED)),
        (Some("call-slips"), 1) => Some(calls::slips(SEED)),
        (Some("plan-slips"), 1) => Some(program::slips(SEED)),
        (Some("store-plans"), 2) => Some(store::store_plans(words[1].as_ref(), STORED, SEED)),
        (Some("answer"), 2) => Some(store::answer(words[1].as_ref())),
        _ => None,
    }
}

fn main() -> ExitCode {
    let words: Vec<String> = std::env::args().skip(1).collect();
    match carry_out(&words) {
        Some(true) => ExitCode::SUCCESS,
        Some(false) => ExitCode::from(1),
        None => {
            println!(
                "usage: compare quick | full [N] | slips [N] | store DIR [N [SEED]] | answer FILE | plans PROGRAM [N] | calls PROGRAM [N] | runs N PROGRAM.. | run-slips | call-slips | plan-slips | store-plans DIR"
            );
            ExitCode::from(2)
        }
    }
}
