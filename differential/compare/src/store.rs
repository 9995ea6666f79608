//! The stored sample: lists of calls with the original's answers.
use crate::judge::Judge;
use crate::lists::{self, Observed, Seen};
use crate::tally::Tally;
use crate::work::dice;
use crate::{plans, program, records};
use generate::Dice;
use model::{Laid, List, Rules};
use oracle::Origin;
use std::path::Path;

/// The line of a call.
fn line(seen: &Seen) -> String {
    match &seen.list {
        Some(list) => words::plan_line(&Laid {
            answer: seen.answer.clone(),
            list: list.clone(),
        }),
        None => words::line(&seen.answer, &seen.counters, &seen.state),
    }
}

/// By the original, by the documents alone, and by the model alone.
fn letter(judge: Judge, origin: Origin) -> char {
    match (judge, origin) {
        (Judge::Rust, Origin::Rust) => 'r',
        (Judge::Rust, Origin::Rules) => '0',
        (Judge::Model, _) => 'm',
    }
}

/// The lines of a list's answers, and who gave them: one letter for each line.
pub fn lines(observed: &Observed) -> (Vec<String>, String) {
    let letter = |origin| letter(observed.judge, origin);
    match &observed.built {
        Err((answer, origin)) => {
            let line = words::refused_build_line(answer);
            (vec![line], letter(*origin).to_string())
        }
        Ok(built) => {
            let seen = || std::iter::once(built).chain(&observed.calls);
            let letters = seen().map(|seen| letter(seen.origin)).collect();
            (seen().map(line).collect(), letters)
        }
    }
}

/// Beside so many lists that the original judges, one with different lookaheads.
const ALONE: u64 = 3;

/// The first of these with different lookaheads: 64 processes and 512 edges.
const FIRST_ALONE: u64 = 5;

/// The lists of the sample: the documents' rehearsals (but for the long ones), then others, `count` of all these
/// for the original; then such as have different lookaheads.
fn sample(count: u64, seed: u64) -> Vec<List> {
    let rehearsals = generate::rehearsals().into_iter().map(|r| r.list);
    let short = |list: &List| list.calls.len() < 100 && list.setup.lookaheads.len() < 100;
    let mut all: Vec<List> = rehearsals.filter(short).collect();
    let judged = |list: &&List| Judge::of_list(list) == Judge::Rust;
    let judged = all.iter().filter(judged).count() as u64;
    let alone = (count / ALONE).saturating_sub(all.len() as u64 - judged);
    let seed = seed.wrapping_mul(1 << 32);
    for number in 0..count.saturating_sub(judged) {
        all.push(generate::stored_list(
            &mut dice(seed, number, false),
            number,
            false,
        ));
    }
    for number in FIRST_ALONE..FIRST_ALONE + alone {
        all.push(generate::stored_list(
            &mut dice(seed, number, true),
            number,
            true,
        ));
    }
    all
}

/// The words of the sample's list with this number. In one of eight lists, what does not count is not
/// zero.
fn stored_words(list: &List, number: usize) -> Vec<u8> {
    let noise = if number % 8 == 7 { 0x89ab_cdef } else { 0 };
    words::bytes(&words::encode(list, noise))
}

/// Writes the sample to the folder, and behind it the states with wrong records. Whether the rules agree
/// with it.
pub fn store(folder: &Path, count: u64, seed: u64) -> bool {
    let (mut calls, mut answers, mut origins) = (vec![], String::new(), String::new());
    let mut tally = Tally::default();
    let mut differ = 0;
    for (number, list) in sample(count, seed).into_iter().enumerate() {
        let written = stored_words(&list, number);
        let observed = lists::observe(&list);
        lists::count(&observed, &mut tally);
        let right = lists::check(Rules::RIGHT, &list, &observed).is_none();
        differ += u64::from(!right || words::decode(&written) != [list]);
        let (lines, letters) = lines(&observed);
        calls.extend(written);
        answers.extend(lines);
        origins += &(letters + "\n");
    }
    for given in records::all() {
        calls.extend(words::bytes(&given.words()));
        answers.extend(given.lines.iter().map(String::as_str));
        let letter = |origin| letter(given.judge, origin);
        origins.push(letter(given.origin));
        origins.extend(given.answers.iter().map(|(_, origin)| letter(*origin)));
        origins.push('\n');
        given.count(&mut tally);
    }
    let files = [
        ("calls.words", &calls[..]),
        ("answers.txt", answers.as_bytes()),
        ("origin.txt", origins.as_bytes()),
    ];
    let bytes: usize = files.iter().map(|(_, bytes)| bytes.len()).sum();
    println!(
        "sample: seed {seed}, {} lists, {} lines, {} of them by the Rust, {} by the model alone, {bytes} bytes, {differ} differences",
        tally.judged + tally.alone,
        answers.lines().count(),
        origins.matches('r').count(),
        origins.matches('m').count()
    );
    tally.print_judges("sample");
    differ == 0
        && files
            .iter()
            .all(|(name, bytes)| written(&folder.join(name), bytes))
}

/// Writes the lists of the sample that have a plan, plans at the edges, and something that cannot be
/// decoded; with the lines that our program has to print for them and who gave these: `r` and `0` as
/// in the sample.
pub fn store_plans(folder: &Path, count: u64, seed: u64) -> bool {
    let has_plan = |list: &List| list.calls.iter().any(|call| plans::observe(call).is_some());
    let mut lists = sample(count, seed);
    lists.retain(has_plan);
    lists.extend(generate::edge_plans().iter().map(program::alone));
    let encoded = lists.iter().flat_map(|list| words::encode(list, 0));
    let mut bytes = words::bytes(&encoded.collect::<Vec<u64>>());
    let right = words::decode(&bytes) == lists;
    bytes.extend(program::undecodable(&mut Dice::new(seed)));
    let all = program::expected(&lists);
    let lines: String = all.iter().map(|e| e.line.as_str()).collect();
    let origins: String = all.iter().map(|e| letter(Judge::Rust, e.origin)).collect();
    println!(
        "plans: {} lists, {} plans, {} by the Rust",
        lists.len(),
        all.len(),
        origins.matches('r').count()
    );
    let files = [
        ("stdin", &bytes[..]),
        ("stdout", lines.as_bytes()),
        ("origin.txt", (origins + "\n").as_bytes()),
    ]
    .map(|(name, bytes)| written(&folder.join(name), bytes));
    right && files == [true; 3]
}

fn written(path: &Path, bytes: &[u8]) -> bool {
    let done = std::fs::write(path, bytes);
    if let Err(cause) = &done {
        println!("sample: {} cannot be written: {cause}", path.display());
    }
    done.is_ok()
}

/// Prints the original's answers to the lists of a file, and compares the rules with them.
pub fn answer(file: &Path) -> bool {
    let bytes = match std::fs::read(file) {
        Ok(bytes) => bytes,
        Err(cause) => {
            println!("{} cannot be read: {cause}", file.display());
            return false;
        }
    };
    let mut right = true;
    for list in words::decode(&bytes) {
        let observed = lists::observe(&list);
        right &= lists::check(Rules::RIGHT, &list, &observed).is_none();
        print!("{}", lines(&observed).0.concat());
    }
    right
}

/// Whether an answer's line begins with these words.
pub fn begins(line: &str, with: &str) -> bool {
    let rest = line.strip_prefix(with);
    rest.is_some_and(|rest| rest.starts_with([' ', '\n']))
}
