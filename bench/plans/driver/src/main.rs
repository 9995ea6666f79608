//! Rehearsals of plan files: the original with its handlers in place, and ours, from the bytes of a file to its listing.
//!
//!     plans-driver N FILE..    N repetitions
mod clock;
mod original;
mod reader;

use clock::cpu_seconds;
use std::hint::black_box;

/// DORREZUBI_LISTING_MAX of include/dorrezubi.h.
const LISTING_MAX: usize = 35_194;
/// A repetition goes on for so many seconds, or for one rehearsal.
const REPETITION: f64 = 0.05;

#[link(name = "dorrezubi", kind = "static")]
extern "C" {
    fn dorrezubi_run_plan(
        plan: *const u8,
        plan_length: usize,
        listing: *mut u8,
        listing_length: usize,
    ) -> u64;
}

fn ours(plan: &[u8], listing: &mut [u8]) -> u64 {
    // SAFETY: each pointer comes from a slice of the length that goes with it, and the last is not shared.
    unsafe {
        dorrezubi_run_plan(
            plan.as_ptr(),
            plan.len(),
            listing.as_mut_ptr(),
            listing.len(),
        )
    }
}

struct Timed {
    name: String,
    plan: Vec<u8>,
    text: String,
    /// Seconds for one rehearsal, the least so far: the original's, ours.
    least: [f64; 2],
}

/// Seconds of CPU time for one rehearsal. A look at the clock takes about as long as a short one, so there are few.
fn seconds(mut rehearse: impl FnMut() -> u64) -> f64 {
    let (start, mut count, mut more) = (cpu_seconds(), 0u32, 1);
    loop {
        for _ in 0..more {
            black_box(rehearse());
        }
        count += more;
        more = count;
        let used = cpu_seconds() - start;
        if used >= REPETITION {
            return used / f64::from(count);
        }
    }
}

impl Timed {
    /// Both have to give the same listing.
    fn new(path: &str) -> Self {
        let plan = std::fs::read(path).expect("a plan cannot be read");
        let (mut rust, mut slice) = (vec![], vec![0; LISTING_MAX]);
        let numbers = [
            original::rehearse(&plan, &mut rust),
            ours(&plan, &mut slice),
        ];
        assert_eq!(numbers, [0, 0], "{path} has no listing");
        let length = slice.iter().position(|&byte| byte == 0);
        slice.truncate(length.unwrap_or(LISTING_MAX));
        assert_eq!(slice, rust, "{path} has two listings");
        let stem = std::path::Path::new(path).file_stem();
        Self {
            name: stem.map_or(path.into(), |stem| stem.to_string_lossy().into()),
            plan,
            text: String::from_utf8(rust).expect("a listing is no text"),
            least: [f64::INFINITY; 2],
        }
    }

    fn repeat(&mut self) {
        let (mut rust, mut slice) = (vec![], vec![0; LISTING_MAX]);
        let plan = &self.plan;
        let times = [
            seconds(|| original::rehearse(black_box(plan), &mut rust)),
            seconds(|| ours(black_box(plan), &mut slice)),
        ];
        for (least, time) in self.least.iter_mut().zip(times) {
            *least = least.min(time);
        }
    }

    fn show(&self) {
        let end: Vec<&str> = self
            .text
            .lines()
            .next_back()
            .unwrap_or("")
            .split(' ')
            .collect();
        let events = self.text.lines().count() - 1;
        let [rust, ours] = self.least;
        println!(
            "{:<16} {:>6} {:>6} {:>7} {:>4} | {:>12.2} {:>12.2} | {:>12.2} {:>12.2} | {:>8.1}",
            self.name,
            self.plan.len(),
            events,
            end[3],
            end[1],
            rust * 1e6,
            1.0 / rust,
            ours * 1e6,
            1.0 / ours,
            rust / ours
        );
    }
}

/// Issue 19's goals: 5 times the original at each plan that is run, a full file read in 10 us.
fn show_goals(all: &[Timed]) {
    let met = |yes: bool| if yes { "met" } else { "MISSED" };
    for timed in all {
        let [rust, ours] = timed.least;
        let read_only = timed.text.starts_with("end 1 ");
        let ran = !timed.text.starts_with("end") || timed.text.starts_with("end 0 ");
        if ran {
            println!(
                "goal: at least 5 times as fast: {} at {}",
                met(rust / ours >= 5.0),
                timed.name
            );
        } else if read_only {
            println!(
                "goal: a full file is read within 10 us: {} at {}",
                met(ours <= 10e-6),
                timed.name
            );
        }
    }
}

fn main() {
    let words: Vec<String> = std::env::args().skip(1).collect();
    let repetitions: u32 = words[0].parse().expect("no number of repetitions");
    let mut all: Vec<Timed> = words[1..].iter().map(|path| Timed::new(path)).collect();
    // One repetition of all, then the next: what else runs on the machine then meets all alike.
    for _ in 0..repetitions {
        all.iter_mut().for_each(Timed::repeat);
    }
    println!("from the bytes of a file to its listing, CPU time, the least of {repetitions} repetitions; the same listings both ways");
    println!("                                          |  the Rust, in place       |  ours                     | ours is faster");
    println!("plan              bytes events  rounds  end |           us     a second |           us     a second | so many times");
    all.iter().for_each(Timed::show);
    show_goals(&all);
}
