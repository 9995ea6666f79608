//! crates/bench_rounds: a slice is its pointer and its length.
use crate::record::Recorded;
use crate::scenario::{Ended, Scenario, LOOKAHEAD};

type Timed = unsafe extern "C" fn(
    n: u64,
    lookahead: u64,
    ids: *const u32,
    ids_len: usize,
    sources: *const u32,
    sources_len: usize,
    counts: *const u64,
    counts_len: usize,
    destinations: *const u32,
    destinations_len: usize,
    lookaheads: *const u64,
    lookaheads_len: usize,
    words: *const u64,
    words_len: usize,
    out: *mut u64,
    out_len: usize,
) -> u64;

#[link(name = "bench_rounds", kind = "static")]
extern "C" {
    fn timed_cores(
        n: u64,
        lookahead: u64,
        ids: *const u32,
        ids_len: usize,
        sources: *const u32,
        sources_len: usize,
        counts: *const u64,
        counts_len: usize,
        destinations: *const u32,
        destinations_len: usize,
        lookaheads: *const u64,
        lookaheads_len: usize,
        words: *const u64,
        words_len: usize,
        out: *mut u64,
        out_len: usize,
    ) -> u64;
    fn timed_calls(
        n: u64,
        lookahead: u64,
        ids: *const u32,
        ids_len: usize,
        sources: *const u32,
        sources_len: usize,
        counts: *const u64,
        counts_len: usize,
        destinations: *const u32,
        destinations_len: usize,
        lookaheads: *const u64,
        lookaheads_len: usize,
        words: *const u64,
        words_len: usize,
        out: *mut u64,
        out_len: usize,
    ) -> u64;
}

/// A build's arguments, and the calls on what it makes.
pub struct Given<'a> {
    ids: Vec<u32>,
    counts: Vec<u64>,
    destinations: Vec<u32>,
    /// The plan's for every edge, which is what the original has: two words each, the upper half first.
    lookaheads: Vec<u64>,
    words: &'a [u64],
    calls: u64,
}

impl<'a> Given<'a> {
    pub fn new(scenario: &Scenario, recorded: &'a Recorded) -> Self {
        let rows = &scenario.rows;
        Self {
            ids: (0..rows.len() as u32).collect(),
            counts: rows.iter().map(|row| row.len() as u64).collect(),
            destinations: rows.concat(),
            lookaheads: [0, LOOKAHEAD].repeat(scenario.edges()),
            words: &recorded.words,
            calls: recorded.calls,
        }
    }

    /// How far it came, and what it ended with.
    fn run(&self, timed: Timed) -> (u64, Ended) {
        let mut out = [0; 9];
        // SAFETY: each pointer comes from a slice of the length that goes with it, and the last is not shared.
        let came = unsafe {
            timed(
                self.ids.len() as u64,
                LOOKAHEAD,
                self.ids.as_ptr(),
                self.ids.len(),
                self.ids.as_ptr(),
                self.ids.len(),
                self.counts.as_ptr(),
                self.counts.len(),
                self.destinations.as_ptr(),
                self.destinations.len(),
                self.lookaheads.as_ptr(),
                self.lookaheads.len(),
                self.words.as_ptr(),
                self.words.len(),
                out.as_mut_ptr(),
                out.len(),
            )
        };
        (came, out)
    }

    /// Through the driver on cores: a build and all calls.
    pub fn cores(&self) -> Ended {
        let (came, ended) = self.run(timed_cores);
        assert_eq!(came, self.calls, "the driver did not carry out all calls");
        ended
    }

    /// Through the calls by value: a build and all calls.
    pub fn calls(&self) -> Ended {
        let (came, ended) = self.run(timed_calls);
        assert_eq!(came, self.calls, "not all calls were carried out");
        ended
    }
}
