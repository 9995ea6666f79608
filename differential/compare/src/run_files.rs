//! Many scenarios of whole runs: files of lists for our programs, and what was compared.
use crate::judge::Judge;
use crate::program::{name, printed, shown as cut, BATCH};
use crate::runs::{check, numbered, observe, planned, Planned};
use crate::shrink::shrink;
use crate::tally::{shown as refusals_shown, Tally};
use crate::wholes;
use crate::work::shared;
use generate::Dice;
use model::{Message, Scenario, Task};
use oracle::Whole;
use std::path::{Path, PathBuf};

/// What was compared with one judge.
#[derive(Default)]
struct Judged {
    scenarios: u64,
    tasks: u64,
    runs: u64,
    events: u64,
    calls: u64,
    cut: u64,
    passed_over: u64,
}

/// What was compared.
#[derive(Default)]
struct Counted {
    tally: Tally,
    by_rust: Judged,
    by_model: Judged,
}

impl Counted {
    fn of(&mut self, judge: Judge) -> &mut Judged {
        match judge {
            Judge::Rust => &mut self.by_rust,
            Judge::Model => &mut self.by_model,
        }
    }

    fn add(&mut self, other: &Counted) {
        self.tally.add(&other.tally);
        self.by_rust.add(&other.by_rust);
        self.by_model.add(&other.by_model);
    }

    fn count(&mut self, planned: &Planned, whole: &Whole) {
        let judge = planned.judge();
        wholes::count(judge, whole, &mut self.tally);
        self.of(judge).count(planned, whole);
    }
}

impl Judged {
    fn add(&mut self, other: &Judged) {
        self.scenarios += other.scenarios;
        self.tasks += other.tasks;
        self.runs += other.runs;
        self.events += other.events;
        self.calls += other.calls;
        self.cut += other.cut;
        self.passed_over += other.passed_over;
    }

    fn count(&mut self, planned: &Planned, whole: &Whole) {
        let runs = planned
            .tasks
            .iter()
            .filter(|t| matches!(t, Task::Run { .. }));
        let handed = |all: &Vec<Vec<Message>>| all.iter().map(Vec::len).sum::<usize>() as u64;
        self.scenarios += 1;
        self.tasks += planned.tasks.len() as u64;
        self.runs += runs.count() as u64;
        self.events += whole.ran.last().map_or(0, |ran| handed(&ran.handled));
        self.calls += planned.list.calls.len() as u64;
        self.cut += u64::from(planned.cut);
    }
}

fn differs_alone(program: &Path, scenario: &Scenario) -> bool {
    let planned = planned(scenario);
    let whole = observe(&planned);
    if !planned.is_compared(&whole) {
        return false;
    }
    let text = printed(program, &words::bytes(&words::encode(&planned.list, 0)));
    text.is_ok_and(|text| told_of(&[(0, planned, whole)], &text).is_some())
}

/// The place of the first difference in a file, and what is told of it.
fn told_of(all: &[(u64, Planned, Whole)], text: &str) -> Option<(Option<usize>, String)> {
    let mut lines = text.split_inclusive('\n');
    for (at, (_, planned, whole)) in all.iter().enumerate() {
        if let Some(what) = check(planned, whole, &mut lines) {
            return Some((Some(at), what));
        }
    }
    let more = lines.next()?;
    Some((None, format!("one line too many: {}", cut(more))))
}

/// Some scenarios, the file of their lists, and what the original did with them.
struct File {
    seed: u64,
    bytes: Vec<u8>,
    all: Vec<(u64, Planned, Whole)>,
}

impl File {
    fn new(seed: u64, numbers: std::ops::Range<u64>, counted: &mut Counted) -> Self {
        let (mut bytes, mut all) = (vec![], vec![]);
        for number in numbers {
            let (_, compared) = numbered(seed, number);
            let Some((planned, whole)) = compared else {
                counted.by_rust.passed_over += 1;
                continue;
            };
            counted.count(&planned, &whole);
            let noise = Dice::new(seed ^ number.wrapping_mul(1 << 40)).any() as u32;
            bytes.extend(words::bytes(&words::encode(&planned.list, noise)));
            all.push((number, planned, whole));
        }
        Self { seed, bytes, all }
    }

    /// What is told of the first difference of a program.
    fn compare(&self, program: &Path) -> Option<String> {
        let name = program.display();
        let text = match printed(program, &self.bytes) {
            Ok(text) => text,
            Err(cause) => return Some(format!("{name} does not run: {cause}")),
        };
        let (at, what) = told_of(&self.all, &text)?;
        let Some((number, ..)) = at.map(|at| &self.all[at]) else {
            return Some(format!("DIFFERENCE, {name}: {what}"));
        };
        let (scenario, _) = numbered(self.seed, *number);
        let smallest = match differs_alone(program, &scenario) {
            true => format!("{:?}", shrink(&scenario, |s| differs_alone(program, s))),
            false => "not by itself: look at how the file is read".to_string(),
        };
        Some(format!(
            "DIFFERENCE in scenario {number}, {name}, {what}\n  smallest form: {smallest}"
        ))
    }
}

/// Compares files up to the first difference.
fn some_files(
    programs: &[PathBuf],
    seed: u64,
    count: u64,
    files: &mut dyn Iterator<Item = u64>,
) -> (Counted, Vec<String>) {
    let mut counted = Counted::default();
    for file in files {
        let numbers = file * BATCH..count.min((file + 1) * BATCH);
        let file = File::new(seed, numbers, &mut counted);
        let found: Vec<String> = programs.iter().filter_map(|p| file.compare(p)).collect();
        if !found.is_empty() {
            return (counted, found);
        }
    }
    (counted, vec![])
}

/// What whole runs from build can be refused with, and from so many scenarios on has to be met.
const MET: [usize; 22] = [
    1, 2, 4, 6, 7, 8, 9, 10, 12, 13, 14, 15, 16, 21, 22, 24, 27, 28, 29, 30, 31, 32,
];
const MANY: u64 = 10_000;

/// Of these, and 5, the ones that have to be met with different lookaheads too; and 40, which is met there alone.
const MET_ALONE: [usize; 7] = [5, 8, 9, 10, 31, 32, 40];

impl Judged {
    fn print(&self, who: &str) {
        let Judged {
            scenarios,
            tasks,
            runs,
            events,
            calls,
            cut,
            passed_over,
        } = self;
        println!("runs: {who}: {scenarios} scenarios, {runs} runs and {} initial events, {events} events handed out; {calls} calls of ours", tasks - runs);
        println!("runs: {who}: {cut} of them up to a task that document 01 alone refuses (17, 18); passed over: {passed_over} builds that it alone refuses");
    }
}

/// Prints what was compared. Whether all was met that has to be.
fn print(counted: &Counted, seed: u64) -> bool {
    let Counted {
        tally,
        by_rust,
        by_model,
    } = counted;
    println!("runs: seed {seed}");
    let judged = "the plan's lookahead on every edge, judged by the Rust";
    by_rust.print(judged);
    println!(
        "runs: {judged}: refusals: {}",
        refusals_shown(&tally.refusals)
    );
    let alone = "different lookaheads, judged by the model alone";
    by_model.print(alone);
    println!(
        "runs: {alone}: refusals: {}",
        refusals_shown(&tally.refusals_alone)
    );
    let unmet = MET.iter().filter(|number| tally.refusals[**number] == 0);
    let unmet_alone = MET_ALONE.iter();
    let unmet_alone = unmet_alone.filter(|number| tally.refusals_alone[**number] == 0);
    let unmet: Vec<String> = unmet.chain(unmet_alone).map(usize::to_string).collect();
    if !unmet.is_empty() {
        println!("runs: NOT MET, so not compared: {}", unmet.join(", "));
    }
    unmet.is_empty() || by_rust.scenarios + by_rust.passed_over < MANY
}

/// Compares `count` scenarios with the plan's lookahead on every edge, and as many with different ones, with each
/// program. Whether there was no difference, and every refusal that can be met was.
pub fn compare(programs: &[PathBuf], seed: u64, count: u64) -> bool {
    let count = 2 * count;
    let files = count.div_ceil(BATCH);
    let (mut counted, mut differences) = (Counted::default(), vec![]);
    for (part, found) in shared(files, |files| some_files(programs, seed, count, files)) {
        counted.add(&part);
        differences.extend(found);
    }
    differences.iter().for_each(|told| println!("{told}"));
    let names: Vec<String> = programs.iter().map(|program| name(program)).collect();
    let names = names.join(", ");
    println!("runs: the Rust's own run_until_with_budget, or the model where lookaheads differ, beside {names}");
    let met = print(&counted, seed);
    println!("runs: {} differences", differences.len());
    differences.is_empty() && met && counted.by_rust.scenarios > 0 && counted.by_model.scenarios > 0
}
