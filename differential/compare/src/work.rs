//! Many scenarios, shared among threads.
use crate::difference::Difference;
use crate::judge::Judge;
use crate::limits::{self, Reading};
use crate::shrink::{shrink, Shrinks};
use crate::tally::Tally;
use crate::{lists, plans, wholes};
use generate::Dice;
use model::{Call, List, Rules, Scenario};
use std::fmt::Debug;

/// So many differences are shown of each thread; then it stops.
const MOST_SHOWN: usize = 3;

/// The four parts of a scenario. One with different lookaheads has no plan: that is on no state.
pub struct Parts {
    pub whole: Scenario,
    pub list: List,
    pub build: List,
    pub plan: Option<Call>,
}

/// Of `2 * count` numbers each second one is of a scenario with different lookaheads.
pub fn every_other(number: u64) -> (u64, bool) {
    (number / 2, number % 2 == 1)
}

/// Dice for the part with this number; for different lookaheads, others.
pub fn dice(seed: u64, part: u64, mixed: bool) -> Dice {
    Dice::new(seed ^ part ^ u64::from(mixed) << 62)
}

/// The scenario with this number. Each part has dice of its own.
pub fn parts(seed: u64, number: u64, mixed: bool) -> Parts {
    let dice = |part: u64| dice(seed.wrapping_mul(1 << 32), number * 4 + part, mixed);
    Parts {
        whole: generate::scenario(&mut dice(0), mixed),
        list: generate::list(&mut dice(1), mixed),
        build: List {
            setup: generate::any_setup(&mut dice(2), mixed),
            odd: None,
            calls: vec![],
        },
        plan: (!mixed).then(|| generate::plan(&mut dice(3))),
    }
}

/// A difference with its smallest form.
pub struct Found {
    number: u64,
    difference: Difference,
    smallest: String,
}

fn found<T: Shrinks + Debug>(
    number: u64,
    from: &T,
    differs: impl Fn(&T) -> Option<Difference>,
    first: Difference,
) -> Found {
    let smallest = shrink(from, |part| differs(part).is_some());
    Found {
        number,
        difference: differs(&smallest).unwrap_or(first),
        smallest: format!("{smallest:?}"),
    }
}

/// What holds of whole runs from build.
fn whole_limits(scenario: &Scenario) -> Option<Difference> {
    limits::of_scenario(scenario, &wholes::observe(scenario), Reading::Least)
}

/// What holds of a list from build.
fn list_limits(list: &List) -> Option<Difference> {
    limits::of_list(list, &lists::observe(list), Reading::Least)
}

/// Whole runs. Where the model judges, there is nothing that its rules could differ from, but for edges that all
/// carry one lookahead.
fn compare_whole(number: u64, whole: &Scenario, tally: &mut Tally) -> Vec<Found> {
    let mut all = vec![];
    if !wholes::comparable(whole) {
        return all;
    }
    let (observed, judge) = (wholes::observe(whole), Judge::of_scenario(whole));
    wholes::count(judge, &observed, tally);
    tally.whole_runs += whole.runs.len() as u64;
    if judge == Judge::Rust {
        let differs = wholes::check(Rules::RIGHT, whole, &observed);
        all.extend(differs.map(|d| found(number, whole, wholes::difference, d)));
    } else if let Some(observed) = wholes::observe_carried(whole) {
        tally.carried += 1;
        let differs = wholes::check(Rules::RIGHT, whole, &observed);
        all.extend(differs.map(|d| found(number, whole, wholes::carried_difference, d)));
    }
    let beyond = limits::of_scenario(whole, &observed, Reading::Least);
    all.extend(beyond.map(|d| found(number, whole, whole_limits, d)));
    all
}

/// A list of calls, or a build.
fn compare_list(number: u64, list: &List, tally: &mut Tally) -> Vec<Found> {
    let mut all = vec![];
    let observed = lists::observe(list);
    lists::count(&observed, tally);
    if observed.judge == Judge::Rust {
        let differs = lists::check(Rules::RIGHT, list, &observed);
        all.extend(differs.map(|d| found(number, list, lists::difference, d)));
    } else if let Some(observed) = lists::observe_carried(list) {
        tally.carried += 1;
        let differs = lists::check(Rules::RIGHT, list, &observed);
        all.extend(differs.map(|d| found(number, list, lists::carried_difference, d)));
    }
    let beyond = limits::of_list(list, &observed, Reading::Least);
    all.extend(beyond.map(|d| found(number, list, list_limits, d)));
    all
}

/// Compares one scenario.
fn compare_one(seed: u64, number: u64, tally: &mut Tally) -> Vec<Found> {
    let (nth, mixed) = every_other(number);
    let parts = parts(seed, nth, mixed);
    let mut all = compare_whole(number, &parts.whole, tally);
    for list in [&parts.list, &parts.build] {
        all.extend(compare_list(number, list, tally));
    }
    if let Some((plan, planned)) = parts.plan.and_then(|p| plans::observe(&p).map(|o| (p, o))) {
        tally.answer(Judge::Rust, &planned.laid.answer, planned.origin);
        let differs = plans::check(Rules::RIGHT, &plan, &planned);
        all.extend(differs.map(|d| found(number, &plan, plans::difference, d)));
        tally.plans += 1;
    }
    tally.scenarios += 1;
    tally.lists += 1;
    tally.builds += 1;
    all
}

/// How many threads share the work, each its own numbers. Two for each core: one of them waits while
/// the original's own threads run.
pub fn workers() -> u64 {
    std::thread::available_parallelism().map_or(1, |n| 2 * n.get() as u64)
}

/// Carries out `work` on each thread, given the numbers that are its own.
pub fn shared<T: Send>(
    count: u64,
    work: impl Fn(&mut dyn Iterator<Item = u64>) -> T + Sync,
) -> Vec<T> {
    let workers = workers();
    let work = &work;
    std::thread::scope(|scope| {
        let mine = move |first| work(&mut (first..count).step_by(workers as usize));
        let started: Vec<_> = (0..workers)
            .map(|first| scope.spawn(move || mine(first)))
            .collect();
        let joined = started.into_iter().map(|thread| thread.join());
        joined
            .map(|done| done.unwrap_or_else(|cause| std::panic::resume_unwind(cause)))
            .collect()
    })
}

fn some_scenarios(seed: u64, numbers: &mut dyn Iterator<Item = u64>) -> (Tally, Vec<Found>) {
    let mut tally = Tally::default();
    let mut all = vec![];
    for number in numbers {
        all.extend(compare_one(seed, number, &mut tally));
        if all.len() >= MOST_SHOWN {
            break;
        }
    }
    (tally, all)
}

fn print_found(found: &Found) {
    let Found {
        number,
        difference,
        smallest,
    } = found;
    let Difference {
        comparison,
        kind,
        at,
        rust,
        rules,
    } = difference;
    println!("DIFFERENCE in scenario {number}, {comparison}, {kind} after call {at}");
    println!("  the Rust:    {rust}");
    println!("  document 01: {rules}");
    println!("  smallest form: {smallest}");
}

/// Compares `count` scenarios with the plan's lookahead on every edge and as many with different ones, and prints
/// what was compared. Whether there was no difference.
pub fn compare(seed: u64, count: u64) -> bool {
    let mut tally = Tally::default();
    let mut all = vec![];
    for (part, found) in shared(2 * count, |numbers| some_scenarios(seed, numbers)) {
        tally.add(&part);
        all.extend(found);
    }
    all.sort_by_key(|found| found.number);
    all.iter().for_each(print_found);
    tally.print(seed);
    println!("compared: {} differences", all.len());
    all.is_empty()
        && tally.scenarios == 2 * count
        && tally.judged > tally.alone / 2
        && tally.carried > 0
}
