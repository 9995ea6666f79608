//! Our program on states given whole (docs/CALLS.md), for what no list from build reaches: private fields
//! set by hand in the original too, and states that 11 refuses, which the original cannot have. States whose
//! edges have different lookaheads are the model's.
use crate::judge::Judge;
use crate::lists;
use crate::program::{first_other, name, printed, shown, BATCH};
use crate::records;
use crate::store;
use crate::tally::Tally;
use crate::work::{dice, every_other};
use generate::{Dice, CLAUSES};
use model::{Answer, Call, Counters, Host, Message, Payload, Rules, State, Variant};
use oracle::Origin;
use std::path::Path;

/// One in so many states is foreign.
const FOREIGN: u64 = 4;

/// A state with its counters, the calls on it, and the lines that it and each call are to have.
pub struct Given {
    pub state: State,
    pub counters: Counters,
    pub calls: Vec<Call>,
    pub lines: Vec<String>,
    pub answers: Vec<(Answer, Origin)>,
    /// Who judges it, and whose state it is.
    pub judge: Judge,
    pub origin: Origin,
    /// What stands where nothing counts.
    pub noise: u32,
}

impl Given {
    pub fn words(&self) -> Vec<u64> {
        words::encode_given(&self.state, &self.counters, &self.calls, self.noise)
    }

    pub fn count(&self, tally: &mut Tally) {
        tally.list(self.judge);
        for (answer, origin) in &self.answers {
            tally.answer(self.judge, answer, *origin);
        }
    }
}

/// As much of a state as the program's arrays hold: no more is printed.
fn held(s: &State) -> State {
    let mut held = s.clone();
    held.edges.truncate(512);
    held.pending.truncate(512);
    held.batch.truncate(64);
    held.horizons.resize(s.n.min(64) as usize, 0);
    held.inbound.resize(s.n.min(64) as usize, 0);
    held
}

/// A line by a program that follows these rules.
fn line_by(host: &mut Host, call: &Call) -> (Answer, String) {
    let answer = host.call(call);
    let line = words::line(&answer, &host.counters, &held(&host.state));
    (answer, line)
}

fn host(rules: Rules, state: &State, counters: &Counters) -> Host {
    Host {
        rules,
        state: state.clone(),
        counters: *counters,
        history: vec![],
        handled: vec![],
    }
}

/// One of each call.
pub fn each_call() -> Vec<Call> {
    let message = Message {
        source: 0,
        destination: 0,
        tick: 5,
        payload: Payload::of(&[]),
    };
    vec![
        Call::AddInitial(message),
        Call::Begin {
            horizon: 9,
            budget: 3,
        },
        Call::Step,
        Call::HandBack {
            mask: 0,
            emissions: vec![],
        },
        Call::ReadGvt,
        Call::ReadCounters,
        Call::ReadPending,
        Call::ReadEarliest,
    ]
}

/// A state that 11 refuses. The original has no such states: the documents alone answer.
pub fn refused(state: State, counters: Counters, calls: Vec<Call>, noise: u32) -> Given {
    assert!(
        Rules::RIGHT.foreign(&state),
        "this is not foreign: {state:?}"
    );
    let mut host = host(Rules::RIGHT, &state, &counters);
    let mut lines = vec![words::given_line(&counters, &held(&state))];
    let mut answers = vec![];
    for call in &calls {
        let (answer, line) = line_by(&mut host, call);
        lines.push(line);
        answers.push((answer, Origin::Rules));
    }
    Given {
        counters,
        calls,
        lines,
        answers,
        judge: judge_of(&state),
        origin: Origin::Rules,
        state,
        noise,
    }
}

/// The model judges alone where an edge has another lookahead than the plan's.
fn judge_of(state: &State) -> Judge {
    let mut edges = state.edges.iter();
    match edges.all(|e| e.lookahead == state.lookahead) {
        true => Judge::Rust,
        false => Judge::Model,
    }
}

/// One that 11 refuses by this clause.
fn foreign(dice: &mut Dice, clause: u64, noise: u32, mixed: bool) -> Option<Given> {
    let (state, counters) = generate::foreign(dice, clause, mixed)?;
    Some(refused(state, counters, each_call(), noise))
}

/// A state whose private fields are set by hand in the original, which answers the calls, or in the model.
fn set_by_hand(dice: &mut Dice, noise: u32, mixed: bool) -> Option<Given> {
    let mut list = generate::list(dice, mixed);
    let wrong = list.odd.as_ref()?.record.is_some();
    list.calls.retain(|call| !matches!(call, Call::Plan { .. }));
    let observed = lists::observe(&list);
    let built = observed.built.as_ref().ok()?;
    let (mut lines, _) = store::lines(&observed);
    lines[0] = words::given_line(&built.counters, &built.state);
    let answers = observed.calls.iter();
    Some(Given {
        state: built.state.clone(),
        counters: built.counters,
        answers: answers.map(|s| (s.answer.clone(), s.origin)).collect(),
        calls: list.calls,
        lines,
        judge: observed.judge,
        origin: if wrong { Origin::Rules } else { Origin::Rust },
        noise,
    })
}

/// The state with this number. Every other one has different lookaheads.
fn given(seed: u64, number: u64) -> Given {
    let (number, mixed) = every_other(number);
    let mut dice = dice(seed.wrapping_mul(1 << 32), number ^ (1 << 63), mixed);
    let noise = ((number % BATCH) as u32) << 8;
    loop {
        let made = match number % FOREIGN {
            0 => foreign(&mut dice, number / FOREIGN, noise, mixed),
            _ => set_by_hand(&mut dice, noise, mixed),
        };
        if let Some(made) = made {
            return made;
        }
    }
}

fn all_lines(all: &[Given]) -> impl Iterator<Item = &str> {
    all.iter().flat_map(|g| &g.lines).map(String::as_str)
}

/// What is told of a difference in the file with this number.
fn told(number: u64, all: &[Given], text: &str) -> Option<String> {
    let (at, line) = first_other(all_lines(all), text)?;
    let right = all_lines(all).nth(at).unwrap_or("no more lines");
    Some(format!(
        "DIFFERENCE in states, file {number}, line {at}\n  expected:    {}\n  our program: {}",
        shown(right),
        shown(&line)
    ))
}

/// The states of the file with this number: first those with wrong records, then any.
fn file(seed: u64, number: u64, count: u64) -> Vec<Given> {
    let Some(number) = number.checked_sub(1) else {
        return records::all();
    };
    let numbers = number * BATCH..count.min((number + 1) * BATCH);
    numbers.map(|number| given(seed, number)).collect()
}

/// Compares the states with wrong records, `count` others and as many with different lookaheads, adds to the
/// tally, and prints what was compared. Whether there was no difference.
pub fn compare(program: &Path, seed: u64, count: u64, all_tally: &mut Tally) -> bool {
    let mut differences = vec![];
    let mut tally = Tally::default();
    let count = 2 * count;
    for number in 0..count.div_ceil(BATCH) + 1 {
        let all = file(seed, number, count);
        let words = all.iter().flat_map(Given::words);
        let bytes = words::bytes(&words.collect::<Vec<_>>());
        match printed(program, &bytes) {
            Ok(text) => differences.extend(told(number, &all, &text)),
            Err(cause) => differences.push(format!("{} does not run: {cause}", program.display())),
        }
        all.iter().for_each(|given| given.count(&mut tally));
    }
    differences.iter().for_each(|told| println!("{told}"));
    let name = name(program);
    let states = tally.judged + tally.alone;
    println!("states: our program {name}, seed {seed}: {states} states given whole and calls on them; each of {CLAUSES} ways to be foreign");
    tally.print_judges("states");
    println!("states: {} differences", differences.len());
    all_tally.add(&tally);
    differences.is_empty() && tally.judged > 0 && tally.alone > 0
}

/// The text of a program that follows other rules.
fn text_of(rules: Rules, g: &Given) -> String {
    let mut host = host(rules, &g.state, &g.counters);
    let mut text = words::given_line(&g.counters, &held(&g.state));
    text.extend(g.calls.iter().map(|call| line_by(&mut host, call).1));
    text
}

/// Whether the lines of a program that follows these rules are others in one of the states.
fn noticed(rules: Rules, all: &[Given]) -> bool {
    let other = |g: &Given| g.lines.concat() != text_of(rules, g);
    all.iter().any(other)
}

/// Whether each of these wrong programs, which lists from build do not show, is noticed here, and the
/// right one is not.
pub fn slips(seed: u64, unseen: &[Variant]) -> bool {
    let files = (0..33).map(|number| file(seed, number, 32 * BATCH));
    let all: Vec<Given> = files.flatten().collect();
    let mut missed = 0;
    for variant in unseen {
        if !noticed(Rules::of(*variant), &all) {
            println!("states: slips: NOT NOTICED: {}", variant.words());
            missed += 1;
        }
    }
    if noticed(Rules::RIGHT, &all) {
        println!("states: slips: the right text is refused");
        missed += 1;
    }
    println!(
        "states: slips: {} wrong programs on {} states, {missed} not noticed",
        unseen.len(),
        all.len()
    );
    missed == 0
}
