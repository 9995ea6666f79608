//! Many files, ours against the judge's answers.
use crate::damage::damaged;
use crate::file::{decode, encode, Plan};
use crate::judge::{judge, with_carried, By, Judged};
use crate::listing::Answered;
use crate::ours::{by_driver, by_program, by_tool};
use crate::random::{any_plan, long_plan, Kind};
use crate::rules;
use crate::shrink::smallest;
use crate::tally::Tally;
use generate::Dice;
use std::path::PathBuf;
use std::sync::atomic::{AtomicBool, AtomicU64, Ordering};
use std::time::{Duration, Instant};

/// So many plans of each kind go to the driver at a time.
const BATCH: u64 = 250;
/// In each batch, so many plans are also damaged.
const DAMAGED: u64 = 20;
/// In each batch, about so many files are given to each program.
const BY_PROGRAM: usize = 10;
/// In each batch, so many files that are not damaged are given to `tools/plan`, and all that are.
const BY_TOOL: usize = 20;
/// The driver tries other slices on one in so many files. It is odd: the two kinds take turns.
const EVERY: u64 = 11;
/// One in so many plans of a kind takes as many rounds as there may be.
const LONG: u64 = 4_000;

/// What is compared with what, and when it ends.
pub struct Work {
    pub drivers: Vec<PathBuf>,
    pub programs: Vec<PathBuf>,
    pub tool: PathBuf,
    pub seed: u64,
    /// So many plans of each kind.
    pub count: u64,
    pub until: Option<Duration>,
}

struct File {
    number: u64,
    bytes: Vec<u8>,
    judged: Judged,
}

impl File {
    fn new(number: u64, bytes: Vec<u8>) -> Self {
        let judged = judge(&bytes);
        Self {
            number,
            bytes,
            judged,
        }
    }
}

/// The dice of a plan, and those of its damage.
fn dice(seed: u64, number: u64, part: u64) -> Dice {
    Dice::new(seed.wrapping_mul(1 << 34) ^ (number * 2 + part))
}

/// Every other plan has edges with different lookaheads.
fn kind(number: u64) -> Kind {
    match number % 2 {
        0 => Kind::Uniform,
        _ => Kind::Mixed,
    }
}

/// The plan with this number.
pub fn numbered(seed: u64, number: u64) -> Plan {
    let mut dice = dice(seed, number, 0);
    if number / 2 % LONG == LONG / 2 {
        return long_plan(&mut dice, kind(number));
    }
    any_plan(&mut dice, kind(number))
}

/// The files of a batch; how many of them are whole.
fn files(seed: u64, numbers: std::ops::Range<u64>) -> (Vec<File>, usize) {
    let numbers = 2 * numbers.start..2 * numbers.end;
    let whole = numbers
        .clone()
        .map(|number| (number, encode(&numbered(seed, number)).0));
    let mut all: Vec<(u64, Vec<u8>)> = whole.collect();
    let count = all.len();
    for number in numbers.take(DAMAGED as usize) {
        let files = damaged(&mut dice(seed, number, 1), kind(number));
        all.extend(files.into_iter().map(|bytes| (number, bytes)));
    }
    let judged = all
        .into_iter()
        .map(|(number, bytes)| File::new(number, bytes));
    (judged.collect(), count)
}

/// Whether the model answers a file otherwise than the original. Where it is itself the judge, and all
/// edges carry one lookahead, the original is asked with that one.
fn rules_differ(file: &File, tally: &mut Tally) -> Option<String> {
    let plan = decode(&file.bytes).ok()?;
    let judged = &file.judged.answered;
    let (rust, rules) = match file.judged.by {
        By::Model => (with_carried(&plan)?, judged.clone()),
        By::Rust | By::Documents => (judged.clone(), rules::ran(&plan).answered),
    };
    tally.count_carried(file.judged.by);
    (rules != rust).then(|| {
        let number = file.number;
        format!("DIFFERENCE, file {number}: the Rust\n{rust:?}\nthe model\n{rules:?}")
    })
}

/// What is told of a file that a driver answers otherwise.
fn told(driver: &PathBuf, file: &File) -> String {
    let differs = |bytes: &[u8]| match by_driver(driver, 1, &[bytes]) {
        Ok(ours) => !ours[0].is(&judge(bytes).answered),
        Err(_) => true,
    };
    let bytes = smallest(&file.bytes, differs);
    let ours = by_driver(driver, 1, &[&bytes]);
    let name = format!("target/difference.{}.plan", file.number);
    let kept = std::fs::write(&name, &bytes).map_or("nowhere", |()| &name);
    let show = |listing: &[u8]| String::from_utf8_lossy(listing).to_string();
    let ours = ours.map_or_else(
        |error| error.to_string(),
        |ours| format!("{}, listing:\n{}", ours[0].number, show(&ours[0].listing)),
    );
    format!(
        "DIFFERENCE, file {}; its smallest form is in {kept}, {} bytes\nthe judge: {:?}\nours: {ours}",
        file.number,
        bytes.len(),
        judge(&bytes).answered
    )
}

fn with_driver(driver: &PathBuf, files: &[File]) -> Option<String> {
    let bytes: Vec<&[u8]> = files.iter().map(|file| &file.bytes[..]).collect();
    let ours = match by_driver(driver, EVERY, &bytes) {
        Ok(ours) => ours,
        Err(error) => {
            // One by one, to find the file.
            let alone = |file: &&File| by_driver(driver, 1, &[&file.bytes]).is_err();
            let file = files.iter().find(alone);
            let none = || {
                format!("DIFFERENCE: the driver: {error}, on many files and on none of them alone")
            };
            return Some(file.map_or_else(none, |file| told(driver, file)));
        }
    };
    let mut pairs = files.iter().zip(&ours);
    let (file, _) = pairs.find(|(file, ours)| !ours.is(&file.judged.answered))?;
    Some(told(driver, file))
}

/// "A program prints it from standard input, and nothing on 37 to 39".
fn with_program(program: &PathBuf, files: &[File]) -> Option<String> {
    // Odd, since the two kinds take turns.
    let each = files.len().div_ceil(BY_PROGRAM) | 1;
    for file in files.iter().step_by(each) {
        let expected = match &file.judged.answered {
            Answered::Number(_) => "",
            Answered::Listed { text, .. } => text,
        };
        let printed = by_program(program, &file.bytes);
        if printed
            .as_ref()
            .is_ok_and(|text| text == expected.as_bytes())
        {
            continue;
        }
        let printed = printed.map(|text| String::from_utf8_lossy(&text).to_string());
        let (name, number) = (program.display(), file.number);
        return Some(format!(
            "DIFFERENCE, file {number}: {name} printed\n{printed:?}\nthe judge\n{expected}"
        ));
    }
    None
}

/// `tools/plan`: whether it reads these files, and whether its text gives them back.
fn with_tool(work: &Work, files: &[File]) -> Option<String> {
    let bytes: Vec<&[u8]> = files.iter().map(|file| &file.bytes[..]).collect();
    let said = match by_tool(&work.tool, &bytes) {
        Ok(said) => said,
        Err(error) => return Some(format!("DIFFERENCE: tools/plan does not run: {error}")),
    };
    let expected = |file: &File| match file.judged.answered {
        Answered::Number(number @ (37 | 38)) => number.to_string(),
        _ => "ok".to_string(),
    };
    let at = (0..files.len()).find(|&at| said.get(at) != Some(&expected(&files[at])))?;
    let (file, said) = (&files[at], said.get(at));
    Some(format!(
        "DIFFERENCE, file {}: tools/plan says {said:?}, the judge {}: {:02x?}",
        file.number,
        expected(file),
        file.bytes
    ))
}

fn one_batch(work: &Work, numbers: std::ops::Range<u64>, tally: &mut Tally) -> Option<String> {
    let (files, whole) = files(work.seed, numbers);
    for (at, file) in files.iter().enumerate() {
        tally.count(&file.judged, at >= whole);
    }
    let drivers = work.drivers.iter();
    files
        .iter()
        .find_map(|file| rules_differ(file, tally))
        .or_else(|| {
            drivers
                .clone()
                .find_map(|driver| with_driver(driver, &files))
        })
        .or_else(|| with_tool(work, &files[whole - BY_TOOL.min(whole)..]))
        .or_else(|| work.programs.iter().find_map(|p| with_program(p, &files)))
}

/// Compares batch after batch, shared among threads. Whether there was no difference, and all that a
/// file can bring was met.
pub fn compare(work: &Work) -> bool {
    let (start, next, stop) = (Instant::now(), AtomicU64::new(0), AtomicBool::new(false));
    let more = || {
        let late = work.until.is_some_and(|until| start.elapsed() >= until);
        let first = next.fetch_add(BATCH, Ordering::Relaxed);
        let go_on = !late && !stop.load(Ordering::Relaxed) && first < work.count;
        go_on.then(|| first..work.count.min(first + BATCH))
    };
    let worker = || {
        let (mut tally, mut found) = (Tally::default(), None);
        while let Some(numbers) = more() {
            found = one_batch(work, numbers, &mut tally);
            if found.is_some() {
                stop.store(true, Ordering::Relaxed);
                break;
            }
        }
        (tally, found)
    };
    let threads = std::thread::available_parallelism().map_or(2, |n| 2 * n.get());
    let all: Vec<(Tally, Option<String>)> = std::thread::scope(|scope| {
        let started: Vec<_> = (0..threads).map(|_| scope.spawn(worker)).collect();
        let joined = started.into_iter().map(|thread| thread.join());
        joined
            .map(|done| done.unwrap_or_else(|cause| std::panic::resume_unwind(cause)))
            .collect()
    });
    let mut tally = Tally::default();
    all.iter().for_each(|(part, _)| tally.add(part));
    let found: Vec<&String> = all.iter().filter_map(|(_, found)| found.as_ref()).collect();
    found.iter().for_each(|told| println!("{told}"));
    let met = tally.print(work.seed, work.drivers.len(), work.programs.len());
    println!("plan files: {} differences", found.len());
    found.is_empty() && met
}
