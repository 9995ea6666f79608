//! The comparison of whole runs is tested against itself: wrong lines of a program are noticed.
use crate::program::BATCH;
use crate::runs::{check, numbered, Planned};
use crate::work::shared;
use model::{Answer, Call, Host, Rules, Variant};
use oracle::Whole;
use words::Line;

type Lines = Vec<String>;

/// The lines behind which a task ends: what stands in them is compared.
fn ends(planned: &Planned) -> Vec<usize> {
    let begins = |call: &Call| matches!(call, Call::AddInitial(_) | Call::Begin { .. });
    let calls = &planned.list.calls;
    let last = |at: &usize| calls.get(at + 1).is_none_or(begins);
    (0..calls.len()).filter(last).map(|at| at + 1).collect()
}

/// The number of a field in a line.
const COUNTERS: usize = 1;
const SIZES: usize = 2;
const EDGES: usize = 3;
const PENDING: usize = 4;
const HORIZONS: usize = 5;
const INBOUND: usize = 6;
const BATCH_IN_HAND: usize = 8;
const FLAGS: usize = 9;

fn field(line: &str, at: usize) -> &str {
    let mut fields = line.trim_end_matches('\n').split(" | ");
    fields.nth(at).unwrap_or("")
}

/// The line with another field; none if there is no such field.
fn with_field(line: &str, at: usize, text: &str) -> Option<String> {
    let mut fields: Vec<&str> = line.trim_end_matches('\n').split(" | ").collect();
    *fields.get_mut(at)? = text;
    Some(fields.join(" | ") + "\n")
}

/// The text with another number in this word of it, at this place between colons.
fn another(text: &str, word: usize, part: usize) -> Option<String> {
    let mut words: Vec<String> = text.split(' ').map(str::to_string).collect();
    let mut parts: Vec<String> = words.get(word)?.split(':').map(str::to_string).collect();
    let number = u128::from_str_radix(parts.get(part)?, 16).ok()?;
    parts[part] = format!("{:x}", number ^ 1);
    words[word] = parts.join(":");
    Some(words.join(" "))
}

/// The last task's last line, with something in a field changed.
fn in_last(planned: &Planned, at: usize, word: usize, part: usize) -> Option<Lines> {
    changed(planned, *ends(planned).last()?, at, |text| {
        another(text, word, part)
    })
}

/// The lines with a field of one of them changed.
fn changed(
    planned: &Planned,
    line: usize,
    at: usize,
    change: impl Fn(&str) -> Option<String>,
) -> Option<Lines> {
    let mut lines = planned.lines.clone();
    let text = change(field(&lines[line], at))?;
    lines[line] = with_field(&lines[line], at, &text)?;
    Some(lines)
}

/// The last line of a run, with another answer.
fn answered(planned: &Planned, change: impl Fn(&str) -> Option<String>) -> Option<Lines> {
    let is_run = |at: &usize| {
        matches!(
            field(&planned.lines[*at], 0).split(' ').next(),
            Some("finished" | "refused")
        )
    };
    let at = ends(planned).into_iter().rev().find(is_run)?;
    changed(planned, at, 0, change)
}

/// The lines in which a batch is answered.
fn batches(planned: &Planned) -> Vec<usize> {
    let is_batch = |at: &usize| Line::of(&planned.lines[*at]).is_some_and(|l| l.name() == "batch");
    (0..planned.lines.len()).filter(is_batch).collect()
}

/// Everything of an event but its destination and its sequence number, which handlers are not given.
fn content(event: &str) -> Vec<&str> {
    let parts: Vec<&str> = event.split(':').collect();
    vec![parts[1], parts[2], parts[4]]
}

/// The event with another's content.
fn with_content(event: &str, other: &str) -> String {
    let (to, from): (Vec<&str>, Vec<&str>) =
        (event.split(':').collect(), other.split(':').collect());
    [to[0], from[1], from[2], to[3], from[4]].join(":")
}

/// Two events of one batch, each handed to the other's process.
fn between_processes(planned: &Planned) -> Option<Lines> {
    let swap = |text: &str| {
        let mut events: Vec<String> = text.split(' ').map(str::to_string).collect();
        let (a, b) = (events.first()?.clone(), events.get(1)?.clone());
        (events[0], events[1]) = (with_content(&a, &b), with_content(&b, &a));
        (content(&a) != content(&b)).then(|| events.join(" "))
    };
    let mut all = batches(planned).into_iter();
    all.find_map(|at| changed(planned, at, BATCH_IN_HAND, swap))
}

/// Two events of one process, handed out in the other order.
fn out_of_order(planned: &Planned) -> Option<Lines> {
    let first = |at: &usize| field(&planned.lines[*at], BATCH_IN_HAND).split(' ').next();
    let process = |event: &str| event.split(':').next().map(str::to_string);
    let all = batches(planned);
    for pair in all.windows(2) {
        let (a, b) = (first(&pair[0])?, first(&pair[1])?);
        if process(a) == process(b) && content(a) != content(b) {
            let mut lines = planned.lines.clone();
            for (at, old, new) in [(pair[0], a, b), (pair[1], b, a)] {
                let batch = field(&lines[at], BATCH_IN_HAND);
                let batch = batch.replacen(old, &with_content(old, new), 1);
                lines[at] = with_field(&lines[at], BATCH_IN_HAND, &batch)?;
            }
            return Some(lines);
        }
    }
    None
}

/// A value of GVT that no answer carries: each that did carries the one before.
fn without_gvt(planned: &Planned) -> Option<Lines> {
    let carried = |line: &String| Line::of(line).and_then(|line| line.gvt());
    let missing = planned
        .lines
        .iter()
        .filter_map(carried)
        .find(|gvt| *gvt > 0)?;
    let mut before = 0;
    let mut lines = planned.lines.clone();
    for line in &mut lines {
        match carried(line) {
            Some(gvt) if gvt == missing => {
                let name = field(line, 0).split(' ').next()?;
                *line = with_field(line, 0, &format!("{name} {before:x}"))?;
            }
            Some(gvt) => before = gvt,
            None => {}
        }
    }
    Some(lines)
}

/// The field of the last line in which it is not empty, without its last word.
fn one_less(planned: &Planned, at: usize, lines: &[usize]) -> Option<Lines> {
    let full = |line: &&usize| !field(&planned.lines[**line], at).is_empty();
    let line = *lines.iter().rev().find(full)?;
    let cut = |text: &str| Some(text.rsplit_once(' ').map_or("", |cut| cut.0).to_string());
    changed(planned, line, at, cut)
}

/// The last answer within a run is that the run is over.
fn ends_early(planned: &Planned) -> Option<Lines> {
    let within = |line: &String| line.starts_with("advanced ") || line.starts_with("committed ");
    let at = planned.lines.iter().rposition(within)?;
    changed(planned, at, 0, |answer| {
        Some(format!("finished {}", answer.split(' ').nth(1)?))
    })
}

type Change = (&'static str, fn(&Planned) -> Option<Lines>);

/// Texts that are wrong in one place each. None where a scenario has no such place.
const CHANGES: [Change; 31] = [
    ("handled is another", |p| in_last(p, COUNTERS, 0, 0)),
    ("emitted is another", |p| in_last(p, COUNTERS, 1, 0)),
    ("remote is another", |p| in_last(p, COUNTERS, 2, 0)),
    ("rounds are others", |p| in_last(p, COUNTERS, 3, 0)),
    ("null messages are others", |p| in_last(p, COUNTERS, 4, 0)),
    ("the worker count is another", |p| {
        in_last(p, COUNTERS, 5, 0)
    }),
    ("the next sequence number is another", |p| {
        in_last(p, SIZES, 2, 0)
    }),
    ("GVT is another", |p| in_last(p, SIZES, 3, 0)),
    ("an edge's lookahead is another", |p| {
        in_last(p, EDGES, 0, 2)
    }),
    ("a bound is another", |p| in_last(p, EDGES, 0, 3)),
    ("a local horizon is another", |p| in_last(p, HORIZONS, 0, 0)),
    ("a least inbound bound is another", |p| {
        in_last(p, INBOUND, 0, 0)
    }),
    ("a least inbound bound is missing", |p| {
        one_less(p, INBOUND, &ends(p))
    }),
    ("a pending event's destination is another", |p| {
        in_last(p, PENDING, 0, 0)
    }),
    ("a pending event's tick is another", |p| {
        in_last(p, PENDING, 0, 1)
    }),
    ("a pending event's source is another", |p| {
        in_last(p, PENDING, 0, 2)
    }),
    ("a pending event's sequence number is another", |p| {
        in_last(p, PENDING, 0, 3)
    }),
    ("a pending event's payload is another", |p| {
        in_last(p, PENDING, 0, 4)
    }),
    ("a pending event is missing", |p| {
        one_less(p, PENDING, &ends(p))
    }),
    ("initial events are said to be open, or not to be", |p| {
        changed(p, *ends(p).last()?, FLAGS, |flags| {
            Some(if flags.starts_with('0') { "1" } else { "0" }.to_string() + &flags[1..])
        })
    }),
    ("it is said to be poisoned, or not to be", |p| {
        changed(p, *ends(p).last()?, FLAGS, |flags| {
            Some(flags[..2].to_string() + if flags.ends_with('0') { "1" } else { "0" })
        })
    }),
    ("a run's answer has another value, or another number", |p| {
        answered(p, |answer| {
            another(answer, answer.split(' ').count() - 1, 0)
        })
    }),
    ("a refused run is finished", |p| {
        answered(p, |answer| {
            answer
                .starts_with("refused")
                .then(|| "finished 0".to_string())
        })
    }),
    ("a finished run is refused", |p| {
        answered(p, |answer| {
            answer
                .starts_with("finished")
                .then(|| "refused 12".to_string())
        })
    }),
    ("a run ends a call early", ends_early),
    (
        "two events of a batch are handed to each other's process",
        between_processes,
    ),
    (
        "two events of a process are handed out in the other order",
        out_of_order,
    ),
    ("an event of a batch is missing", |p| {
        one_less(p, BATCH_IN_HAND, &batches(p))
    }),
    ("a value of GVT is carried by no answer", without_gvt),
    ("the last line is missing", |p| {
        Some(p.lines[..p.lines.len() - 1].to_vec())
    }),
    ("a line stands twice", |p| {
        let mut lines = p.lines.clone();
        lines.insert(1, lines.get(1)?.clone());
        Some(lines)
    }),
];

fn is_noticed(planned: &Planned, whole: &Whole, lines: &Lines) -> bool {
    let mut lines = lines.iter().map(String::as_str);
    check(planned, whole, &mut lines).is_some() || lines.next().is_some()
}

/// The lines of a program that follows other rules, given the same calls.
fn lines_by(rules: Rules, planned: &Planned) -> Lines {
    let mut host = match Host::build(rules, &planned.list.setup) {
        Err(refused) => return vec![words::refused_build_line(&refused)],
        Ok(host) => host,
    };
    let built = words::line(&Answer::Accepted, &host.counters, &host.state);
    let mut lines = vec![built];
    for call in &planned.list.calls {
        let answer = host.call(call);
        lines.push(words::line(&answer, &host.counters, &host.state));
    }
    lines
}

/// What whole runs from build do not show: it needs a state set by hand, a call that a host which
/// answers its batches does not make (a plan, a read, a malformed reply),
/// or it concerns the open run and the batch, which the original does not keep.
const UNSEEN: [Variant; 25] = [
    Variant::ClosedByStoredHorizon,
    Variant::OneLessWraps,
    Variant::GvtFalls,
    Variant::NoStraggler,
    Variant::FullBeforeSequence,
    Variant::SequenceOverflowEarly,
    Variant::CountersWrap,
    Variant::PoisonKeepsBatch,
    Variant::PoisonClosesRun,
    Variant::MalformedLosesBatch,
    Variant::ReadsRefusePoisoned,
    Variant::ForeignWithoutHorizon,
    Variant::ForeignWithoutRecord,
    Variant::ForeignFirstRecord,
    Variant::ForeignLastRecordUnseen,
    Variant::ForeignLowRecordUnseen,
    Variant::ForeignHighRecordUnseen,
    Variant::ForeignRecordByLowerHalf,
    Variant::ForeignWithoutEdgeLookahead,
    Variant::ForeignFirstEdgeLookahead,
    Variant::ForeignLastEdgeLookaheadUnseen,
    Variant::PlanByGeneration,
    Variant::GreatestEntityTwice,
    Variant::PlanWritesBeforeTwice,
    Variant::OwnersFromOne,
];

fn told(right: bool, what: &str) -> bool {
    if !right {
        println!("runs: slips: {what}");
    }
    right
}

/// So many scenarios are looked at, and each change is made in so many of them.
const MOST: u64 = 48 * BATCH;
const PLACES: usize = 400;

/// These scenarios in their order, those that are compared.
fn scenarios(seed: u64) -> Vec<(Planned, Whole)> {
    let some = shared(MOST, |numbers| {
        let each = numbers.filter_map(|k| Some((k, numbered(seed, k).1?)));
        each.collect::<Vec<_>>()
    });
    let mut all: Vec<(u64, (Planned, Whole))> = some.into_iter().flatten().collect();
    all.sort_by_key(|(number, _)| *number);
    all.into_iter().map(|(_, compared)| compared).collect()
}

/// Whether each change is noticed in every scenario where it is made, each wrong program in some
/// scenario but for those that are listed above, and the right lines in none.
pub fn slips(seed: u64) -> bool {
    let all = scenarios(seed);
    let refused = all.iter().filter(|(p, w)| is_noticed(p, w, &p.lines));
    let mut right = told(refused.count() == 0, "right lines are refused");
    let mut texts = 0;
    for (words, change) in CHANGES {
        let places = all.iter().filter_map(|(p, w)| Some((p, w, change(p)?)));
        let noticed: Vec<bool> = places
            .take(PLACES)
            .map(|(p, w, l)| is_noticed(p, w, &l))
            .collect();
        let missed = noticed.iter().filter(|noticed| !**noticed).count();
        let line = format!("NOT NOTICED in {missed} of {}: {words}", noticed.len());
        right &= told(missed == 0 && !noticed.is_empty(), &line);
        texts += noticed.len();
    }
    let wrong = Variant::ALL.iter().filter(|v| !UNSEEN.contains(v));
    let mut programs = 0;
    for variant in wrong {
        let rules = Rules::of(*variant);
        let seen = |(p, w): &(Planned, Whole)| is_noticed(p, w, &lines_by(rules, p));
        let noticed = all.iter().any(seen);
        right &= told(noticed, &format!("NOT NOTICED: {}", variant.words()));
        programs += 1;
    }
    println!(
        "runs: slips: {} changes of lines, in {texts} places of {} scenarios; {} wrong programs; {}",
        CHANGES.len(),
        all.len(),
        programs,
        if right { "each is noticed" } else { "NOT each is noticed" }
    );
    right
}
