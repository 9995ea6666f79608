//! Our program `calls_main` (crates/calls_main) against the original: the lines that it prints for the
//! builds and the calls of lists, each with everything that document 01 compares after a call. Lists whose edges
//! have different lookaheads are judged by the model alone.
use crate::lists::{self, Observed};
use crate::program::{file, first_other, name, printed, shown, BATCH};
use crate::shrink::shrink;
use crate::states;
use crate::store;
use crate::tally::{shown as refusals_shown, Tally};
use crate::work::{dice, every_other, parts, shared};
use model::{Answer, Call, Host, Laid, List, Rules, Variant};
use std::path::Path;

/// A list, and its judge's lines for it with their origins.
struct Expected {
    list: List,
    lines: Vec<String>,
    letters: String,
}

fn expected(list: List, observed: &Observed) -> Expected {
    let (lines, letters) = store::lines(observed);
    Expected {
        list,
        lines,
        letters,
    }
}

/// The lists with this number: any calls, calls that a build leads to, and a build, which may be
/// refused and has a call behind it. Of every other number they have different lookaheads.
fn lists_of(seed: u64, number: u64) -> [List; 3] {
    let (number, mixed) = every_other(number);
    let mut dice = dice(seed.wrapping_mul(1 << 32), number, mixed);
    let parts = parts(seed, number, mixed);
    let (mut any, mut build) = (parts.list, parts.build);
    any.odd = None;
    build.calls = vec![Call::Step];
    let stored = generate::stored_list(&mut dice, number + 6, mixed);
    [any, stored, build]
}

fn all_lines(all: &[Expected]) -> impl Iterator<Item = &str> {
    all.iter().flat_map(|e| &e.lines).map(String::as_str)
}

fn differs_alone(program: &Path, list: &List) -> bool {
    let one = [expected(list.clone(), &lists::observe(list))];
    let text = printed(program, &words::bytes(&words::encode(list, 0)));
    text.is_ok_and(|text| first_other(all_lines(&one), &text).is_some())
}

/// What is told of a difference in a file.
fn told(program: &Path, number: u64, all: &[Expected], text: &str) -> Option<String> {
    let (at, line) = first_other(all_lines(all), text)?;
    let mut before = 0;
    let found = all.iter().find_map(|e| {
        let here = at - before;
        before += e.lines.len();
        (at < before).then_some((e, here))
    });
    let (right, smallest) = match found {
        None => ("no more lines".to_string(), String::new()),
        Some((e, here)) => {
            let who = match e.letters.as_bytes().get(here) {
                Some(b'r') => "the Rust:    ",
                Some(b'm') => "the model:   ",
                _ => "document 01: ",
            };
            let smallest = match differs_alone(program, &e.list) {
                true => format!("{:?}", shrink(&e.list, |l| differs_alone(program, l))),
                false => "not by itself: look at how the file is read".to_string(),
            };
            (format!("{who}{}", shown(&e.lines[here])), smallest)
        }
    };
    Some(format!(
        "DIFFERENCE in file {number}, line {at}\n  {right}\n  our program: {}\n  smallest form: {smallest}",
        shown(&line)
    ))
}

/// Compares one file; what is told of a difference.
fn compare_one(
    program: &Path,
    seed: u64,
    number: u64,
    count: u64,
    tally: &mut Tally,
) -> Option<String> {
    let first = number * BATCH;
    let numbers = first..count.min(first + BATCH);
    let lists = numbers.flat_map(|number| lists_of(seed, number));
    let bytes = file(seed, number, lists);
    let mut all = vec![];
    for list in words::decode(&bytes) {
        let observed = lists::observe(&list);
        lists::count(&observed, tally);
        all.push(expected(list, &observed));
    }
    match printed(program, &bytes) {
        Ok(text) => told(program, number, &all, &text),
        Err(cause) => Some(format!("{} does not run: {cause}", program.display())),
    }
}

/// Compares files up to the first difference.
fn some_files(
    program: &Path,
    seed: u64,
    count: u64,
    numbers: &mut dyn Iterator<Item = u64>,
) -> (Tally, Option<String>) {
    let mut tally = Tally::default();
    for number in numbers {
        let found = compare_one(program, seed, number, count, &mut tally);
        if found.is_some() {
            return (tally, found);
        }
    }
    (tally, None)
}

/// The rehearsals of documents 01 and 02, those that 01 does not mark among them: whether our program answers as
/// the original does, and as is written there.
fn rehearsed(program: &Path) -> bool {
    let rehearsals = generate::rehearsals();
    let lists = rehearsals.iter().map(|r| r.list.clone());
    let all: Vec<Expected> = lists
        .map(|list| {
            let observed = lists::observe(&list);
            expected(list, &observed)
        })
        .collect();
    let words: Vec<u64> = all.iter().flat_map(|e| words::encode(&e.list, 0)).collect();
    let written = rehearsals.iter().zip(&all).all(|(rehearsal, e)| {
        let mut lines = e.lines.iter().zip(&rehearsal.answers);
        e.lines.len() == rehearsal.answers.len()
            && lines.all(|(line, with)| store::begins(line, with))
    });
    let found = match printed(program, &words::bytes(&words)) {
        Ok(text) => told(program, 0, &all, &text),
        Err(cause) => Some(format!("{} does not run: {cause}", program.display())),
    };
    let right = written && found.is_none();
    found.iter().for_each(|told| println!("{told}"));
    println!(
        "calls: {} rehearsals of documents 01 and 02 on our program {}: {}",
        all.len(),
        name(program),
        if right {
            "as the Rust answers, or the model where lookaheads differ, and as written"
        } else {
            "NOT as written"
        }
    );
    right
}

/// What lists of calls have to meet, from builds and from states given whole: by the original all of 01's
/// refusals, and by the model those in which lookaheads of edges count.
const MET_ALONE: [usize; 6] = [5, 10, 11, 31, 32, 40];
const MANY: u64 = 1_000;

fn unmet(tally: &Tally) -> Vec<String> {
    let by_rust = (1..37).filter(|number| tally.refusals[*number] == 0);
    let by_model = MET_ALONE.iter();
    let by_model = by_model.filter(|number| tally.refusals_alone[**number] == 0);
    let by_model = by_model.map(|number| format!("{number} of different lookaheads"));
    by_rust.map(|n| n.to_string()).chain(by_model).collect()
}

/// Compares the rehearsals, then `count` scenarios of three lists each with the plan's lookahead on every edge and
/// as many with different ones, and prints what was compared. Whether there was no difference.
pub fn compare(program: &Path, seed: u64, count: u64) -> bool {
    let rehearsed = rehearsed(program);
    let numbers = 2 * count;
    let files = numbers.div_ceil(BATCH);
    let (mut tally, mut differences) = (Tally::default(), vec![]);
    for (part, found) in shared(files, |files| some_files(program, seed, numbers, files)) {
        tally.add(&part);
        differences.extend(found);
    }
    differences.iter().for_each(|told| println!("{told}"));
    let name = name(program);
    let lists = tally.judged + tally.alone;
    println!("calls: our program {name}, seed {seed}: {lists} lists in {files} files");
    tally.print_judges("calls");
    println!("calls: {} differences", differences.len());
    let (judged, alone) = (tally.judged, tally.alone);
    let given = states::compare(program, seed, count, &mut tally);
    println!(
        "calls: refusals seen, from builds and from states given whole: judged by the Rust {}; by the model alone {}",
        refusals_shown(&tally.refusals),
        refusals_shown(&tally.refusals_alone)
    );
    let unmet = unmet(&tally);
    if !unmet.is_empty() {
        println!("calls: NOT MET, so not compared: {}", unmet.join(", "));
    }
    let met = unmet.is_empty() || count < MANY;
    rehearsed && differences.is_empty() && given && met && judged > 0 && alone > 0
}

/// A call's line by a program that follows these rules.
fn line_by(host: &mut Host, call: &Call) -> String {
    let answer = host.call(call);
    match call {
        Call::Plan {
            n,
            lookahead,
            lent,
            entities,
        } => {
            let list = host.rules.plan(*n, *lookahead, entities, *lent).list;
            words::plan_line(&Laid { answer, list })
        }
        _ => words::line(&answer, &host.counters, &host.state),
    }
}

/// A list's text by a program that follows other rules.
fn text_of(rules: Rules, list: &List) -> String {
    let mut host = match Host::build(rules, &list.setup) {
        Err(refused) => return words::refused_build_line(&refused),
        Ok(host) => host,
    };
    let mut text = words::line(&Answer::Accepted, &host.counters, &host.state);
    let lines = list.calls.iter().map(|call| line_by(&mut host, call));
    text.extend(lines);
    text
}

/// Whether a program that follows these rules is noticed: its text is looked at list by list, up to the first
/// that is another.
fn noticed(rules: Rules, all: &[Expected]) -> bool {
    let other = |e: &Expected| e.lines.concat() != text_of(rules, &e.list);
    all.iter().any(other)
}

/// What a list of calls from build does not show: it is met from states given whole alone (states.rs), or,
/// the owners, printed in no line.
const UNSEEN: [Variant; 18] = [
    Variant::ClosedByStoredHorizon,
    Variant::OneLessWraps,
    Variant::GvtFalls,
    Variant::NoStraggler,
    Variant::FullBeforeSequence,
    Variant::SequenceOverflowEarly,
    Variant::CountersWrap,
    Variant::ForeignWithoutHorizon,
    Variant::ForeignWithoutRecord,
    Variant::ForeignFirstRecord,
    Variant::ForeignLastRecordUnseen,
    Variant::ForeignLowRecordUnseen,
    Variant::ForeignHighRecordUnseen,
    Variant::ForeignRecordByLowerHalf,
    Variant::ForeignWithoutEdgeLookahead,
    Variant::ForeignFirstEdgeLookahead,
    Variant::ForeignLastEdgeLookaheadUnseen,
    Variant::OwnersFromOne,
];

/// Wrong texts, each with what is wrong with it.
fn texts(all: &[Expected]) -> Vec<(&'static str, String)> {
    let right: String = all_lines(all).collect();
    let last = right
        .trim_end_matches('\n')
        .rfind('\n')
        .map_or(0, |at| at + 1);
    vec![
        ("a digit is another", right.replacen('3', "4", 1)),
        ("the last line is missing", right[..last].to_string()),
        (
            "the last line stands twice",
            format!("{right}{}", &right[last..]),
        ),
        (
            "the last line does not end",
            right.trim_end_matches('\n').to_string(),
        ),
        ("nothing is printed", String::new()),
    ]
}

/// Whether each wrong text and each wrong program is noticed, and the right one is not.
pub fn slips(seed: u64) -> bool {
    let lists = (0..8 * BATCH).flat_map(|number| lists_of(seed, number));
    let all: Vec<Expected> = lists
        .map(|list| {
            let observed = lists::observe(&list);
            expected(list, &observed)
        })
        .collect();
    let mut wrong: Vec<(&str, bool)> = vec![];
    for (words, text) in texts(&all) {
        wrong.push((words, first_other(all_lines(&all), &text).is_some()));
    }
    for variant in Variant::ALL.iter().filter(|v| !UNSEEN.contains(v)) {
        wrong.push((variant.words(), noticed(Rules::of(*variant), &all)));
    }
    let mut missed = 0;
    for (words, _) in wrong.iter().filter(|(_, noticed)| !noticed) {
        println!("calls: slips: NOT NOTICED: {words}");
        missed += 1;
    }
    if noticed(Rules::RIGHT, &all) {
        println!("calls: slips: the right text is refused");
        missed += 1;
    }
    let (lines, wrong) = (all_lines(&all).count(), wrong.len());
    println!("calls: slips: {wrong} wrong texts of {lines} lines, {missed} not noticed");
    let unseen: Vec<Variant> = UNSEEN
        .into_iter()
        .filter(|v| *v != Variant::OwnersFromOne)
        .collect();
    states::slips(seed, &unseen) & (missed == 0)
}
