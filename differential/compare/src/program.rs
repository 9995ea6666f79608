//! Our program `plans` (crates/partition_main) against the original: the lines that it prints for the plans in
//! lists of calls.
use crate::judge::Judge;
use crate::plans;
use crate::shrink::shrink;
use crate::tally::Tally;
use crate::work::shared;
use generate::Dice;
use model::{Answer, Call, List, Rules, Setup, Variant};
use oracle::Origin;
use std::io::{self, Write};
use std::path::Path;
use std::process::{Command, Stdio};

/// How many lists the program is given at a time.
pub const BATCH: u64 = 250;

/// So many plans are put behind the calls of each list.
const PLANS: u64 = 4;

/// So much of a line is shown.
const SHOWN: usize = 300;

/// A plan, and the original's line for it.
pub struct Expected {
    pub call: Call,
    pub line: String,
    pub origin: Origin,
    answer: Answer,
}

/// The plans of these lists in their order. Plan is on no state: a refused build does not matter.
pub fn expected(lists: &[List]) -> Vec<Expected> {
    let calls = lists.iter().flat_map(|list| &list.calls);
    let line = |call: &Call| {
        let planned = plans::observe(call)?;
        Some(Expected {
            call: call.clone(),
            line: words::plan_line(&planned.laid),
            origin: planned.origin,
            answer: planned.laid.answer,
        })
    };
    calls.filter_map(line).collect()
}

/// The program's name, without its folder.
pub fn name(program: &Path) -> String {
    let name = program.file_name().unwrap_or_default();
    name.to_string_lossy().to_string()
}

/// What the program prints when it is given these bytes.
pub fn printed(program: &Path, input: &[u8]) -> io::Result<String> {
    let mut child = Command::new(program)
        .stdin(Stdio::piped())
        .stdout(Stdio::piped())
        .spawn()?;
    let stdin = child.stdin.take();
    let output = std::thread::scope(|scope| {
        // Where the program ends too early this fails, and lines are missing.
        scope.spawn(move || stdin.map(|mut stdin| stdin.write_all(input)));
        child.wait_with_output()
    })?;
    if !output.status.success() {
        return Err(io::Error::other(format!("it ended with {}", output.status)));
    }
    String::from_utf8(output.stdout).map_err(io::Error::other)
}

/// The number of the first line that is not as expected, and that line.
pub fn first_other<'a>(
    expected: impl Iterator<Item = &'a str>,
    text: &str,
) -> Option<(usize, String)> {
    let mut lines = text.split_inclusive('\n');
    let mut count = 0;
    for expected in expected {
        let line = lines.next().unwrap_or("");
        if line != expected {
            return Some((count, line.to_string()));
        }
        count += 1;
    }
    lines.next().map(|line| (count, line.to_string()))
}

fn first_difference(expected: &[Expected], text: &str) -> Option<(usize, String)> {
    first_other(expected.iter().map(|e| e.line.as_str()), text)
}

/// The list with this number: any calls, then some plans. Every other one has different lookaheads: plan is on no
/// state, so the original judges all plans.
fn list(seed: u64, number: u64) -> List {
    let mut dice = Dice::new(seed.wrapping_mul(1 << 32) ^ number);
    let mut list = generate::list(&mut dice, number % 2 == 1);
    list.odd = None;
    let plans = (0..PLANS).map(|_| generate::any_plan(&mut dice));
    list.calls.extend(plans);
    list
}

/// The file with this number: these lists. One in three breaks off in its last list, and one has
/// something behind that cannot be decoded.
pub fn file(seed: u64, number: u64, lists: impl Iterator<Item = List>) -> Vec<u8> {
    let mut dice = Dice::new(seed ^ number.wrapping_mul(1 << 40));
    let (mut bytes, mut last) = (vec![], 0);
    for list in lists {
        let noise = dice.any() as u32;
        let list = words::bytes(&words::encode(&list, noise));
        last = list.len();
        bytes.extend(list);
    }
    match number % 3 {
        1 => bytes.truncate(bytes.len() - dice.index(last)),
        2 => bytes.extend(undecodable(&mut dice)),
        _ => {}
    }
    bytes
}

/// A list whose build or call cannot be decoded, and one behind it. Neither is answered.
pub fn undecodable(dice: &mut Dice) -> Vec<u8> {
    let [many, long] = generate::plans_beyond();
    let reply = generate::reply_beyond();
    let call = dice.pick(&[&Call::Step, &many, &long, &reply]);
    let mut list = alone(call);
    if dice.one_in(4) {
        list.setup = generate::lookaheads_alone(8193);
    }
    let mut all = words::encode(&list, 0);
    if let (Call::Step, Some(tag)) = (call, all.last_mut()) {
        *tag = dice.pick(&[9, 1 << 32, u64::MAX]);
    }
    all.extend(words::encode(&alone(&generate::plan_of(1, 1)), 0));
    words::bytes(&all)
}

/// A list with this call alone.
pub fn alone(call: &Call) -> List {
    let setup = Setup {
        n: 1,
        lookahead: 1,
        ids: vec![0],
        sources: vec![0],
        counts: vec![0],
        destinations: vec![],
        lookaheads: vec![],
    };
    let (odd, calls) = (None, vec![call.clone()]);
    List { setup, odd, calls }
}

/// Whether a call alone makes a difference.
fn differs_alone(program: &Path, call: &Call) -> bool {
    let list = alone(call);
    let text = printed(program, &words::bytes(&words::encode(&list, 0)));
    text.is_ok_and(|text| first_difference(&expected(&[list]), &text).is_some())
}

pub fn shown(line: &str) -> String {
    line.trim_end_matches('\n').chars().take(SHOWN).collect()
}

/// What is told of a difference in a file.
fn told(program: &Path, number: u64, all: &[Expected], text: &str) -> Option<String> {
    let (at, line) = first_difference(all, text)?;
    let expected = all.get(at);
    let right = match expected {
        None => "no more lines".to_string(),
        Some(e) if e.origin == Origin::Rust => format!("the Rust:    {}", shown(&e.line)),
        Some(e) => format!("document 01: {}", shown(&e.line)),
    };
    let smallest = match expected.filter(|e| differs_alone(program, &e.call)) {
        Some(e) => format!("{:?}", shrink(&e.call, |call| differs_alone(program, call))),
        None => "not by itself: look at how the file is read".to_string(),
    };
    Some(format!(
        "DIFFERENCE in file {number}, plan {at}\n  {right}\n  our program: {}\n  smallest form: {smallest}",
        shown(&line)
    ))
}

/// Compares one file; what is told of a difference.
fn compare_one(
    program: &Path,
    seed: u64,
    number: u64,
    count: u64,
    tally: &mut Tally,
) -> Option<String> {
    let first = number * BATCH;
    let numbers = first..count.min(first + BATCH);
    let bytes = file(seed, number, numbers.map(|number| list(seed, number)));
    let lists = words::decode(&bytes);
    let all = expected(&lists);
    tally.lists += lists.len() as u64;
    tally.plans += all.len() as u64;
    for expected in &all {
        tally.answer(Judge::Rust, &expected.answer, expected.origin);
    }
    match printed(program, &bytes) {
        Ok(text) => told(program, number, &all, &text),
        Err(cause) => Some(format!("{} does not run: {cause}", program.display())),
    }
}

/// Compares files up to the first difference.
fn some_files(
    program: &Path,
    seed: u64,
    count: u64,
    numbers: &mut dyn Iterator<Item = u64>,
) -> (Tally, Option<String>) {
    let mut tally = Tally::default();
    for number in numbers {
        let found = compare_one(program, seed, number, count, &mut tally);
        if found.is_some() {
            return (tally, found);
        }
    }
    (tally, None)
}

/// Compares the plans of `count` lists and prints what was compared. Whether there was no difference.
pub fn compare(program: &Path, seed: u64, count: u64) -> bool {
    let files = count.div_ceil(BATCH);
    let (mut tally, mut differences) = (Tally::default(), vec![]);
    for (part, found) in shared(files, |numbers| some_files(program, seed, count, numbers)) {
        tally.add(&part);
        differences.extend(found);
    }
    differences.iter().for_each(|told| println!("{told}"));
    print(&tally, seed, files);
    println!("plans: {} differences", differences.len());
    differences.is_empty() && tally.plans > 0
}

fn print(tally: &Tally, seed: u64, files: u64) {
    let Tally {
        lists,
        plans,
        by_rust,
        by_rules,
        refusals,
        ..
    } = tally;
    println!("plans: our program, seed {seed}: {plans} plans in {lists} lists in {files} files, {by_rust} answered by the Rust, {by_rules} by the documents alone");
    let refused = [1, 2, 34, 36, 35].map(|number| format!("{number}: {}", refusals[number]));
    println!(
        "plans: planned: {}; refused: {}",
        refusals[0],
        refused.join(", ")
    );
}

/// The text of a program that follows other rules.
fn text_of(rules: Rules, all: &[Expected]) -> String {
    let line = |e: &Expected| match &e.call {
        Call::Plan {
            n,
            lookahead,
            lent,
            entities,
        } => words::plan_line(&rules.plan(*n, *lookahead, entities, *lent)),
        _ => String::new(),
    };
    all.iter().map(line).collect()
}

/// Wrong texts, each with what is wrong with it, and the right one.
fn texts(all: &[Expected]) -> Vec<(&'static str, String)> {
    let right = text_of(Rules::RIGHT, all);
    let (first, rest) = right.split_once('\n').unwrap_or((&right, ""));
    let last = right
        .trim_end_matches('\n')
        .rfind('\n')
        .map_or(0, |at| at + 1);
    let wrong = [
        Variant::PlanByGeneration,
        Variant::GreatestEntityTwice,
        Variant::PlanWritesBeforeTwice,
    ];
    let by_rules = wrong.map(|v| (v.words(), text_of(Rules::of(v), all)));
    let mut texts = vec![
        ("a digit is another", right.replacen('3', "4", 1)),
        (
            "36 is answered as 35",
            right.replacen("refused 36", "refused 35", 1),
        ),
        ("the first line is missing", rest.to_string()),
        ("the last line is missing", right[..last].to_string()),
        (
            "the last line stands twice",
            format!("{right}{}", &right[last..]),
        ),
        (
            "the last line does not end",
            right.trim_end_matches('\n').to_string(),
        ),
        (
            "the first line has a space more",
            format!("{first} \n{rest}"),
        ),
        ("nothing is printed", String::new()),
    ];
    texts.extend(by_rules);
    texts.push(("", right));
    texts
}

/// Whether each wrong text is noticed, and the right one is not.
pub fn slips(seed: u64) -> bool {
    let lists: Vec<List> = (0..BATCH).map(|number| list(seed, number)).collect();
    let all = expected(&lists);
    let texts = texts(&all);
    let mut missed = 0;
    for (words, text) in &texts {
        let noticed = first_difference(&all, text).is_some();
        let right = words.is_empty();
        if noticed == right {
            println!(
                "plans: slips: {} {words}",
                if right {
                    "the right text is refused"
                } else {
                    "NOT NOTICED:"
                }
            );
            missed += 1;
        }
    }
    let (plans, wrong) = (all.len(), texts.len() - 1);
    println!("plans: slips: {wrong} wrong texts of {plans} plans, {missed} not noticed");
    missed == 0
}
