//! Times rounds four ways, in one run and on the same scenarios: (i) the original, (ii) the original with
//! handlers run in place, (iii) ours through the driver on cores, (iv) ours through the calls by value.
//! All four have to end with the same counters, GVT and number of pending events.
mod ours;
mod record;
mod scenario;
/// (i)
mod threads {
    use kairo_ecs_pdes as pdes;
    include!("original.rs");
}
/// (ii)
mod in_place {
    use kairo_ecs_pdes_in_place as pdes;
    include!("original.rs");
}
use ours::Given;
use record::{record, Recorded};
use scenario::{Scenario, HANDLED, ROUNDS};
use std::hint::black_box;
use std::time::Instant;

/// How many rounds a list has about; (i) is given shorter ones.
const LONG: u64 = 2000;
const SHORT: u64 = 150;

/// The arrays of a state by value.
const STATE_WORDS: usize = 3072 + 4096 + 256 + 512;

/// The scenario until so late that there are about so many rounds.
fn lasting(scenario: &Scenario, rounds: u64) -> Scenario {
    let probe = 1000;
    let made = record(&scenario.until(probe)).ended[ROUNDS];
    scenario.until(probe * rounds / made)
}

#[repr(C)]
struct Timespec {
    seconds: i64,
    nanoseconds: i64,
}

extern "C" {
    fn clock_gettime(clock: i32, to: *mut Timespec) -> i32;
}

/// The CPU time of this process so far, in nanoseconds.
fn cpu_time() -> i64 {
    const CLOCK_PROCESS_CPUTIME_ID: i32 = 2;
    let mut now = Timespec {
        seconds: 0,
        nanoseconds: 0,
    };
    // SAFETY: `now` is a `timespec` of 64-bit Linux, and is not shared.
    let failed = unsafe { clock_gettime(CLOCK_PROCESS_CPUTIME_ID, &mut now) };
    assert_eq!(failed, 0, "there is no clock of CPU time");
    now.seconds * 1_000_000_000 + now.nanoseconds
}

/// The lesser of the time that passes and of the CPU time, so that what else runs on the machine is not
/// counted, and of threads that run at the same time one is.
fn nanoseconds(mut run: impl FnMut()) -> f64 {
    let (start, used) = (Instant::now(), cpu_time());
    run();
    let used = (cpu_time() - used) as f64;
    used.min(start.elapsed().as_nanos() as f64)
}

/// (ii), where callgrind finds it by its name.
#[no_mangle]
#[inline(never)]
fn timed_in_place(scenario: &Scenario) -> scenario::Ended {
    in_place::run(scenario)
}

/// A scenario's lists of calls, and the least times so far.
struct Timed {
    given: Scenario,
    few: Scenario,
    many: Scenario,
    short: Recorded,
    long: Recorded,
    least: [f64; 4],
}

impl Timed {
    /// The four ways are compared on the short list; in each repetition they are again.
    fn new(given: Scenario) -> Self {
        let few = lasting(&given, SHORT);
        let many = lasting(&given, LONG);
        let (short, long) = (record(&few), record(&many));
        let (ours, name) = (Given::new(&few, &short), &given.name);
        assert_eq!(threads::run(&few), short.ended, "{name}: (i)");
        assert_eq!(timed_in_place(&few), short.ended, "{name}: (ii)");
        assert_eq!(ours.cores(), short.ended, "{name}: (iii)");
        assert_eq!(ours.calls(), short.ended, "{name}: (iv)");
        Self {
            given,
            few,
            many,
            short,
            long,
            least: [f64::INFINITY; 4],
        }
    }

    fn repeat(&mut self, with_threads: bool) {
        let (few, many) = (&self.few, &self.many);
        let (short, long) = (self.short.ended, self.long.ended);
        let ours = Given::new(many, &self.long);
        let mut keep = |way: usize, time: f64| self.least[way] = self.least[way].min(time);
        if with_threads {
            keep(0, nanoseconds(|| assert_eq!(threads::run(few), short)));
        }
        keep(1, nanoseconds(|| assert_eq!(timed_in_place(many), long)));
        keep(2, nanoseconds(|| assert_eq!(ours.cores(), long)));
        keep(3, nanoseconds(|| assert_eq!(ours.calls(), long)));
    }

    /// Nanoseconds of a way for each of what is counted there.
    fn each(&self, way: usize, what: usize) -> f64 {
        let ended = if way == 0 { &self.short } else { &self.long }.ended;
        self.least[way] / ended[what] as f64
    }

    /// How many times as long as (iii) a round takes.
    fn ratio(&self, way: usize) -> f64 {
        self.each(way, ROUNDS) / self.each(2, ROUNDS)
    }
}

/// Nanoseconds for one copy of a state's arrays.
fn copy_time() -> f64 {
    let from = vec![1u64; STATE_WORDS];
    let mut to = vec![0u64; STATE_WORDS];
    let mut least = f64::INFINITY;
    for _ in 0..100 {
        let time = nanoseconds(|| {
            for _ in 0..100 {
                black_box(&mut to).copy_from_slice(black_box(&from));
            }
        });
        least = least.min(time / 100.0);
    }
    least
}

/// Nanoseconds for one event of a handler alone, which (i) and (ii) run and ours do not.
fn handler_time() -> f64 {
    use kairo_ecs_pdes_in_place::{ConservativeProcess, LpId, RemoteEvent};
    let mut relay = in_place::Relay::new(0, &[1, 2, 3]);
    let event = RemoteEvent {
        source_lp: LpId(1),
        dest_lp: LpId(0),
        tick: kairo_ecs_types::SimTime::ZERO,
        event_payload: vec![],
    };
    let mut least = f64::INFINITY;
    for _ in 0..100 {
        let time = nanoseconds(|| {
            for _ in 0..1000 {
                black_box(relay.on_event(black_box(&event)));
            }
        });
        least = least.min(time / 1000.0);
    }
    least
}

/// The worst figure of a goal, and the scenario that has it. Larger is better.
#[derive(Default)]
struct Worst(Option<(f64, String)>);

impl Worst {
    fn take(&mut self, figure: f64, scenario: &Scenario) {
        if self.0.as_ref().is_none_or(|worst| figure < worst.0) {
            self.0 = Some((figure, scenario.name.clone()));
        }
    }

    fn show(&self, goal: &str, least: f64) {
        let Some((figure, name)) = &self.0 else {
            return;
        };
        let met = if *figure >= least { "met" } else { "MISSED" };
        println!("  {goal}: {met}, {:.2} at {name}", figure.abs());
    }
}

/// The goals of issues 8 and 20. What is to stay small is taken with a minus.
#[derive(Default)]
struct Goals {
    threads: Worst,
    in_place: Worst,
    largest: Worst,
    full: Worst,
    series: Worst,
    whole: Worst,
    over: Worst,
}

impl Goals {
    fn show(&self) {
        println!("goals, each with its worst figure:");
        let shown = &self.threads;
        shown.show("(iii) is at least 50 times as fast as (i)", 50.0);
        let shown = &self.in_place;
        shown.show("(iii) is at least as fast as (ii), in the table", 1.0);
        let shown = &self.series;
        shown.show("(iii) is at least as fast as (ii), in the two series", 1.0);
        let shown = &self.largest;
        shown.show("(iii) is at least 13 times as fast as (ii)", 13.0);
        let shown = &self.full;
        shown.show("(iii) is at least 9 times as fast as (ii)", 9.0);
        let shown = &self.over;
        shown.show("a call of (iv) is at most 8 copies over (iii)", -8.0);
        let shown = &self.whole;
        shown.show(
            "a call of (iv) is at most 8 copies, its work included",
            -8.0,
        );
    }
}

fn show_table(table: &[Timed], copy: f64, goals: &mut Goals) {
    println!("                                          |          (i)           |          (ii)          |         (iii)          |          (iv)          |   a round's ratios to (iii)   | (iv): a call, in copies");
    println!("scenario   n edges pending  events rounds |   an event     a round |   an event     a round |   an event     a round |   an event     a round |     (i)      (ii)      (iv)   |     ns    whole  over (iii)");
    for t in table {
        let (given, ended, calls) = (&t.given, t.long.ended, t.long.calls as f64);
        print!(
            "{:<8} {:>3} {:>5}",
            given.name,
            given.rows.len(),
            given.edges()
        );
        print!(
            " {:>7} {:>7} {:>6} |",
            given.initial.len(),
            ended[HANDLED],
            ended[ROUNDS]
        );
        for way in 0..4 {
            print!(
                " {:>10.0} {:>11.0} |",
                t.each(way, HANDLED),
                t.each(way, ROUNDS)
            );
        }
        let (call, over) = (t.least[3] / calls, (t.least[3] - t.least[2]) / calls);
        print!(
            " {:>7.1} {:>9.2} {:>9.2}   |",
            t.ratio(0),
            t.ratio(1),
            t.ratio(3)
        );
        println!(" {call:>6.0} {:>8.1} {:>11.1}", call / copy, over / copy);
        goals.threads.take(t.ratio(0), given);
        goals.in_place.take(t.ratio(1), given);
        goals.whole.take(-call / copy, given);
        goals.over.take(-over / copy, given);
        match (given.edges(), given.initial.len()) {
            (512, 256) => goals.largest.take(t.ratio(1), given),
            (512, 512) => goals.full.take(t.ratio(1), given),
            _ => {}
        }
    }
}

fn show_series(title: &str, series: &[Timed], goals: &mut Goals) {
    println!("{title}: a round");
    println!("scenario    events rounds |     (ii)    (iii)     (iv) | (ii)/(iii)");
    for t in series {
        let ended = t.long.ended;
        print!(
            "{:<10} {:>7} {:>6} |",
            t.given.name, ended[HANDLED], ended[ROUNDS]
        );
        for way in 1..4 {
            print!(" {:>8.0}", t.each(way, ROUNDS));
        }
        println!(" | {:>10.2}", t.ratio(1));
        goals.series.take(t.ratio(1), &t.given);
    }
}

/// One run of one side, for callgrind: prints the rounds, the events and the calls.
fn run_once(side: &str, name: &str, rounds: u64) {
    let mut all = scenario::table();
    all.extend(scenario::idle());
    all.extend(scenario::waiting());
    let given = all
        .iter()
        .find(|s| s.name == name)
        .expect("no such scenario");
    let given = lasting(given, rounds);
    let recorded = record(&given);
    let ours = Given::new(&given, &recorded);
    let ended = match side {
        "in_place" => timed_in_place(&given),
        "cores" => ours.cores(),
        "calls" => ours.calls(),
        _ => panic!("no such side"),
    };
    assert_eq!(ended, recorded.ended);
    println!("{} {} {}", ended[ROUNDS], ended[HANDLED], recorded.calls);
}

fn main() {
    let args: Vec<String> = std::env::args().skip(1).collect();
    if let [once, side, name, rounds] = &args[..] {
        assert_eq!(once, "once");
        return run_once(side, name, rounds.parse().expect("no number of rounds"));
    }
    let repetitions = args.first().map_or(25, |n| n.parse().expect("no number"));
    let timed = |scenarios: Vec<Scenario>| -> Vec<Timed> {
        scenarios.into_iter().map(Timed::new).collect()
    };
    let mut table = timed(scenario::table());
    let mut idle = timed(scenario::idle());
    let mut waiting = timed(scenario::waiting());
    let (mut copy, mut handler) = (f64::INFINITY, f64::INFINITY);
    // One repetition of all, then the next: what else runs on the machine then meets all alike.
    for repetition in 0..repetitions {
        copy = copy.min(copy_time());
        handler = handler.min(handler_time());
        table.iter_mut().for_each(|t| t.repeat(repetition % 5 == 0));
        let series = idle.iter_mut().chain(&mut waiting);
        series.for_each(|t| t.repeat(false));
    }
    println!("nanoseconds (of passed and of CPU time the lesser), the least of {repetitions} repetitions, for (i) of every fifth; each of a build, its initial events and all rounds");
    println!("one copy of a state ({} bytes): {copy:.0}; a handler's event, which only (i) and (ii) run: {handler:.0}", 8 * STATE_WORDS);
    let mut goals = Goals::default();
    show_table(&table, copy, &mut goals);
    show_series("two busy processes among idle ones", &idle, &mut goals);
    show_series(
        "one event circulates, the others wait",
        &waiting,
        &mut goals,
    );
    goals.show();
}
