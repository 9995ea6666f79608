//! Plans whose listings are known: document 01's cases, what document 02 says of files, and runs with
//! different lookaheads that were worked out by hand.
use crate::file::{decode, encode, Edge, Event, Plan, Unread};
use crate::judge::{rehearsed, with_carried, By};
use crate::listing::Answered;
use crate::rules;

fn event(source: u32, destination: u32, tick: u128) -> Event {
    Event {
        source,
        destination,
        tick,
        payload: vec![],
    }
}

fn edge(source: u32, destination: u32, lookahead: u128) -> Edge {
    Edge {
        source,
        destination,
        lookahead,
    }
}

/// Two processes, lookahead 3, an edge each way, horizon 9.
fn pair() -> Plan {
    Plan {
        n: 2,
        lookahead: 3,
        horizon: 9,
        budget: 1_000_000,
        edges: vec![edge(0, 1, 3), edge(1, 0, 3)],
        ..Plan::default()
    }
}

/// The pair with an initial event 0 to 1 at 2, and these replies.
fn answered(replies: Vec<(u32, Vec<Event>)>) -> Plan {
    Plan {
        initial: vec![event(0, 1, 2)],
        replies,
        ..pair()
    }
}

/// Event lines have short ticks here: `p tick source`, then the end line's five parts.
fn lists(plan: Plan, events: &[(u32, u128, u32)], end: (usize, u128, u64, u64)) {
    let mut text = String::new();
    for (process, tick, source) in events {
        text.push_str(&format!("{process} {tick:032x} {source}\n"));
    }
    let (number, gvt, rounds, nulls) = end;
    text.push_str(&format!("end {number} {gvt:032x} {rounds} {nulls}\n"));
    let expected = Answered::Listed { text, end: number };
    assert_eq!(rehearsed(&plan).answered, expected, "the judge");
    assert_eq!(rules::ran(&plan).answered, expected, "the model");
    assert_eq!(decode(&encode(&plan).0), Ok(plan), "the file");
}

#[test]
fn runs_that_finish() {
    lists(pair(), &[], (0, 9, 4, 6));
    lists(answered(vec![]), &[(1, 2, 0)], (0, 9, 5, 6));
    let replies = vec![(0, vec![]), (1, vec![event(1, 0, 5)])];
    lists(answered(replies), &[(1, 2, 0), (0, 5, 1)], (0, 9, 6, 6));
}

#[test]
fn the_second_reply_answers_the_second_event() {
    let mut plan = answered(vec![
        (1, vec![]),
        (9, vec![event(3, 3, 3)]),
        (1, vec![event(1, 1, 7)]),
    ]);
    plan.initial.push(event(1, 1, 2));
    lists(plan, &[(1, 2, 0), (1, 2, 1), (1, 7, 1)], (0, 9, 7, 6));
}

#[test]
fn a_spent_budget() {
    let mut plan = answered(vec![]);
    plan.budget = 0;
    lists(plan.clone(), &[], (24, 0, 0, 0));
    plan.budget = 1;
    plan.initial.push(event(0, 1, 2));
    lists(plan, &[(1, 2, 0)], (24, 0, 1, 0));
}

#[test]
fn a_lost_batch_is_not_listed() {
    lists(
        answered(vec![(1, vec![event(1, 0, 4)])]),
        &[],
        (32, 0, 0, 0),
    );
    let mut long = event(1, 1, 2);
    long.payload = vec![0; 17];
    lists(answered(vec![(1, vec![long])]), &[], (26, 0, 0, 0));
}

/// 26 is of the whole batch, ahead of an earlier process's 32.
#[test]
fn a_long_payload_comes_first() {
    let mut long = event(1, 1, 2);
    long.payload = vec![0; 31];
    let mut plan = answered(vec![(0, vec![event(0, 1, 0)]), (1, vec![long])]);
    plan.initial.push(event(0, 0, 2));
    lists(plan, &[], (26, 0, 0, 0));
}

#[test]
fn a_full_queue_at_hand_back() {
    let burst = |count: usize| Plan {
        n: 1,
        edges: vec![],
        initial: vec![event(0, 0, 2), event(0, 0, 2)],
        replies: vec![(0, vec![]), (0, vec![event(0, 0, 9); count])],
        budget: 2,
        ..pair()
    };
    lists(burst(512), &[(0, 2, 0), (0, 2, 0)], (24, 1, 2, 0));
    lists(burst(513), &[(0, 2, 0)], (18, 1, 1, 0));
}

#[test]
fn refused_builds() {
    let edges = |edges: &[(u32, u32)]| Plan {
        edges: edges.iter().map(|&(s, d)| edge(s, d, 3)).collect(),
        ..pair()
    };
    lists(edges(&[(0, 1), (1, 0), (0, 1)]), &[], (5, 0, 0, 0));
    lists(edges(&[(0, 1), (5, 0)]), &[], (7, 0, 0, 0));
    lists(edges(&[(0, 4), (5, 0)]), &[], (8, 0, 0, 0));
    let none = Plan {
        n: 0,
        lookahead: 0,
        ..edges(&[(1, 0), (0, 1)])
    };
    lists(none, &[], (1, 0, 0, 0));
}

#[test]
fn refused_initial_events() {
    let mut plan = answered(vec![]);
    plan.initial.push(event(0, 2, 2));
    lists(plan.clone(), &[], (15, 0, 0, 0));
    plan.initial[1] = event(0, 1, 2);
    plan.initial[1].payload = vec![1; 17];
    lists(plan, &[], (17, 0, 0, 0));
}

#[test]
fn too_many_rounds() {
    let far = Plan {
        horizon: 65_537 * 3,
        ..pair()
    };
    assert_eq!(rehearsed(&far).answered, Answered::Number(39));
    let refused = Plan {
        lookahead: 0,
        ..far
    };
    lists(refused, &[], (2, 0, 0, 0));
}

/// The pair with a lookahead of 1 from 0 to 1, and of 5 back.
fn uneven() -> Plan {
    Plan {
        edges: vec![edge(0, 1, 1), edge(1, 0, 5)],
        ..pair()
    }
}

/// Bounds 1 and 5 at first, then 6 and 6, 7 and 10, 10 and 10; local horizons 5 and 1, 6 and 6, 10 and
/// 7, 10 and 10. The plan's lookahead decides nothing.
#[test]
fn bounds_rise_by_the_edge() {
    lists(uneven(), &[], (0, 9, 4, 5));
    let other = Plan {
        lookahead: 1 << 100,
        ..uneven()
    };
    lists(other, &[], (0, 9, 4, 5));
    assert_eq!(rehearsed(&uneven()).by, By::Model);
    assert_ne!(rehearsed(&pair()).by, By::Model);
}

/// 0 handles at 2 and may be at 1 from 3 on; 1 handles at 0, which comes before its bound of 1, and may be
/// at 0 from 5 on.
#[test]
fn minimum_ticks_by_the_edge() {
    let to_one = |tick| Plan {
        initial: vec![event(0, 0, 2)],
        replies: vec![(0, vec![event(0, 1, tick)])],
        ..uneven()
    };
    lists(to_one(3), &[(0, 2, 0), (1, 3, 0)], (0, 9, 6, 5));
    lists(to_one(2), &[], (32, 0, 0, 0));
    let to_zero = |tick| Plan {
        initial: vec![event(1, 1, 0)],
        replies: vec![(1, vec![event(1, 0, tick), event(1, 1, 0)])],
        ..uneven()
    };
    lists(to_zero(5), &[(1, 0, 1), (1, 0, 1), (0, 5, 1)], (0, 9, 7, 5));
    lists(to_zero(4), &[], (32, 0, 0, 0));
}

/// Along one edge the sum overflows, along the other it does not.
#[test]
fn overflow_by_the_edge() {
    let late = u128::MAX - 2;
    let to = |destination| Plan {
        n: 3,
        lookahead: late,
        horizon: u128::MAX - 1,
        edges: vec![edge(0, 1, late), edge(0, 2, late + 1)],
        initial: vec![event(0, 0, 2)],
        replies: vec![(0, vec![event(0, destination, u128::MAX)])],
        ..pair()
    };
    // Two advances: process 0 and both bounds, then 1 and 2.
    lists(to(1), &[(0, 2, 0)], (0, u128::MAX - 1, 3, 2));
    lists(to(2), &[], (31, 0, 0, 0));
}

#[test]
fn refused_edge_lookaheads() {
    let edges = |edges: &[Edge]| Plan {
        edges: edges.to_vec(),
        ..pair()
    };
    lists(edges(&[edge(0, 1, 0), edge(1, 0, 3)]), &[], (40, 0, 0, 0));
    // Behind 7, 8, 9 and 10 of the same edge, before all of the next.
    lists(edges(&[edge(2, 0, 0)]), &[], (7, 0, 0, 0));
    lists(edges(&[edge(0, 2, 0)]), &[], (8, 0, 0, 0));
    lists(edges(&[edge(0, 0, 0)]), &[], (9, 0, 0, 0));
    lists(edges(&[edge(0, 1, 3), edge(0, 1, 0)]), &[], (10, 0, 0, 0));
    lists(edges(&[edge(0, 1, 0), edge(0, 1, 3)]), &[], (40, 0, 0, 0));
    lists(edges(&[edge(0, 1, 0), edge(0, 5, 3)]), &[], (40, 0, 0, 0));
    lists(edges(&[edge(0, 1, 0), edge(5, 0, 3)]), &[], (40, 0, 0, 0));
    lists(edges(&[edge(1, 0, 0), edge(0, 1, 3)]), &[], (5, 0, 0, 0));
    let none = Plan {
        lookahead: 0,
        ..edges(&[edge(0, 1, 3), edge(1, 0, 3)])
    };
    lists(none, &[], (2, 0, 0, 0));
}

/// 39 by the least edge lookahead, whatever the plan's is.
#[test]
fn too_many_rounds_by_the_least_edge() {
    let far = |lookahead, horizon| Plan {
        n: 3,
        lookahead,
        horizon,
        edges: vec![edge(0, 1, 7), edge(0, 2, 2)],
        ..pair()
    };
    let refused = Answered::Number(39);
    assert_eq!(rehearsed(&far(1 << 90, 65_537 * 2)).answered, refused);
    let last = 65_537 * 2 - 1;
    // Process 0 and both bounds, then 1 and 2.
    lists(far(1, last), &[], (0, last, 2, 2));
    let alone = |horizon| Plan {
        edges: vec![],
        ..far(2, horizon)
    };
    assert_eq!(rehearsed(&alone(65_537 * 2)).answered, refused);
    lists(alone(last), &[], (0, last, 1, 0));
}

/// Where all edges carry one lookahead, the original says the same with that one.
#[test]
fn one_lookahead_on_all_edges() {
    let plan = Plan {
        lookahead: 1,
        ..answered(vec![(1, vec![event(1, 0, 5)])])
    };
    assert_eq!(rehearsed(&plan).by, By::Model);
    assert_eq!(with_carried(&plan), Some(rehearsed(&plan).answered));
    lists(plan, &[(1, 2, 0), (0, 5, 1)], (0, 9, 6, 6));
    assert_eq!(with_carried(&uneven()), None);
    assert_eq!(with_carried(&pair()), None);
}

#[test]
fn files_that_are_no_plans() {
    let (file, padding) = encode(&pair());
    for at in 0..file.len() {
        assert_eq!(decode(&file[..at]), Err(Unread::Malformed));
    }
    let mut other = file.clone();
    other[file.len() - 1] |= 1 << (padding - 1);
    assert_eq!(decode(&other), Err(Unread::Malformed));
    assert_eq!(decode(&[&file[..], &[0]].concat()), Err(Unread::Malformed));
    assert_eq!(decode(&[0; 16_385]), Err(Unread::TooLarge));
    assert_eq!(decode(&[0; 16_384]), Err(Unread::Malformed));
}
