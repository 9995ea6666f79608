//! The comparison is tested against itself: programs that are wrong in one place are noticed.
use crate::difference::Difference;
use crate::limits::{self, Reading, WRONG};
use crate::work::{every_other, parts, shared};
use crate::{lists, plans, wholes};
use model::{Rules, Variant};

/// What is wrong: a program, or the limits that every list from build keeps.
#[derive(Clone, Copy, Debug, Eq, PartialEq)]
enum Wrong {
    Program(Variant),
    Limits(Reading, &'static str),
}

impl Wrong {
    fn all() -> Vec<Self> {
        let programs = Variant::ALL.iter().map(|v| Wrong::Program(*v));
        let limits = WRONG.iter().map(|(r, words)| Wrong::Limits(*r, words));
        programs.chain(limits).collect()
    }

    fn words(self) -> &'static str {
        match self {
            Wrong::Program(variant) => variant.words(),
            Wrong::Limits(_, words) => words,
        }
    }
}

/// What is wrong, the scenario in which it was noticed, and what differed there.
struct Noticed {
    wrong: Wrong,
    number: u64,
    difference: Difference,
}

/// What notices each of these in one scenario.
fn notice(seed: u64, number: u64, unnoticed: &[Wrong]) -> Vec<Noticed> {
    let (nth, mixed) = every_other(number);
    let parts = parts(seed, nth, mixed);
    let whole = wholes::comparable(&parts.whole).then(|| wholes::observe(&parts.whole));
    let list = lists::observe(&parts.list);
    let build = lists::observe(&parts.build);
    let plan = parts.plan.as_ref().map(|p| (p, plans::observe(p)));
    let by_program = |variant: Variant| {
        let rules = Rules::of(variant);
        let whole = whole.as_ref();
        whole
            .and_then(|whole| wholes::check(rules, &parts.whole, whole))
            .or_else(|| lists::check(rules, &parts.list, &list))
            .or_else(|| lists::check(rules, &parts.build, &build))
            .or_else(|| match &plan {
                Some((plan, Some(planned))) => plans::check(rules, plan, planned),
                _ => None,
            })
    };
    let by_limits = |reading: Reading| {
        let whole = whole.as_ref();
        whole
            .and_then(|whole| limits::of_scenario(&parts.whole, whole, reading))
            .or_else(|| limits::of_list(&parts.list, &list, reading))
    };
    let noticed = |wrong: &Wrong| {
        let difference = match *wrong {
            Wrong::Program(variant) => by_program(variant),
            Wrong::Limits(reading, _) => by_limits(reading),
        };
        difference.map(|difference| Noticed {
            wrong: *wrong,
            number,
            difference,
        })
    };
    unnoticed.iter().filter_map(noticed).collect()
}

fn notice_some(seed: u64, wrong: &[Wrong], numbers: impl Iterator<Item = u64>) -> Vec<Noticed> {
    let mut unnoticed = wrong.to_vec();
    let mut all: Vec<Noticed> = vec![];
    for number in numbers {
        all.extend(notice(seed, number, &unnoticed));
        unnoticed.retain(|wrong| all.iter().all(|noticed| noticed.wrong != *wrong));
        if unnoticed.is_empty() {
            break;
        }
    }
    all
}

/// The line of something wrong; whether it was noticed.
fn print_one(wrong: Wrong, all: &[Noticed]) -> bool {
    let mine = all.iter().filter(|noticed| noticed.wrong == wrong);
    let words = wrong.words();
    let Some(first) = mine.min_by_key(|noticed| noticed.number) else {
        println!("slips: NOT NOTICED: {words}");
        return false;
    };
    let (after, by) = (first.number + 1, &first.difference);
    println!(
        "slips: {words}: noticed by {} ({}), after {after} scenarios",
        by.kind, by.comparison
    );
    true
}

/// So many scenarios are looked at by all threads; then what they noticed is looked for no more.
const PART: u64 = 400;

/// Whether every wrong program, and wrong limits, are noticed within `count` scenarios with the plan's lookahead
/// on every edge and as many with different ones.
pub fn slips(seed: u64, count: u64) -> bool {
    let (mut all, mut unnoticed): (Vec<Noticed>, _) = (vec![], Wrong::all());
    for first in (0..2 * count).step_by(PART as usize) {
        let part = PART.min(2 * count - first);
        let some = shared(part, |numbers| {
            notice_some(seed, &unnoticed, numbers.map(|number| first + number))
        });
        all.extend(some.into_iter().flatten());
        unnoticed.retain(|wrong| all.iter().all(|noticed| noticed.wrong != *wrong));
        if unnoticed.is_empty() {
            break;
        }
    }
    let wrong = Wrong::all().into_iter();
    let noticed: Vec<bool> = wrong.map(|wrong| print_one(wrong, &all)).collect();
    let missed = noticed.iter().filter(|noticed| !**noticed).count();
    println!(
        "slips: {} wrong programs and {} wrong readings of the limits, {missed} not noticed",
        Variant::ALL.len(),
        WRONG.len()
    );
    missed == 0
}
