//! States given whole whose record of least inbound bounds (A.2 of document 02) is wrong in one process, or of
//! which an edge has a lookahead of 0 (A.4), which 11 refuses; and such as are right, whatever the table has for
//! processes that there are not. They are states of the original, reached by calls; one is of the model.
use crate::lists;
use crate::states::{each_call, refused, Given};
use model::{lookahead_words, with_record, Call, Counters, List, Message, Payload, Setup, State};
use oracle::Origin;

/// What stands in the table behind the last process, besides nothing.
const BEYOND: u32 = 0x89ab_cdef;

/// So many processes, and the destinations of each.
fn setup(rows: &[Vec<u32>]) -> Setup {
    let ids: Vec<u32> = (0..rows.len() as u32).collect();
    Setup {
        n: rows.len() as u64,
        lookahead: 3,
        sources: ids.clone(),
        ids,
        counts: rows.iter().map(|row| row.len() as u64).collect(),
        destinations: rows.concat(),
        lookaheads: vec![],
    }
    .made_uniform()
}

/// The first process without inbound edges; the last; all 64 places taken; a process alone; and the first once
/// more with different lookaheads.
fn setups() -> [Setup; 5] {
    let web = [vec![1, 2], vec![2, 3], vec![1, 3], vec![4], vec![]];
    let falling: Vec<Vec<u32>> = (0..4)
        .map(|p: u32| p.checked_sub(1).into_iter().collect())
        .collect();
    let rising: Vec<Vec<u32>> = (1..65).map(|p| (p..64).take(1).collect()).collect();
    [
        setup(&web),
        setup(&falling),
        setup(&rising),
        setup(&[vec![]]),
        Setup {
            lookaheads: lookahead_words([1, 5, 1 << 64, 2, 3, 4, u128::MAX]),
            ..setup(&web)
        },
    ]
}

fn initial(p: u32, tick: u128) -> Call {
    Call::AddInitial(Message {
        source: p,
        destination: p,
        tick,
        payload: Payload::of(&[p as u8, 7]),
    })
}

/// Calls that lead into a run, with bounds that differ.
fn into_a_run(n: u64) -> Vec<Call> {
    let last = n as u32 - 1;
    let begin = Call::Begin {
        horizon: 30,
        budget: 60,
    };
    let nothing = Call::HandBack {
        mask: 0,
        emissions: vec![],
    };
    let open = [initial(0, 2), initial(last, 4), initial(last / 2, 9), begin];
    let run = [Call::Step, nothing, Call::Step, Call::Step];
    [open, run].concat()
}

/// Where the original is behind these calls, with what it answers to others.
fn right(setup: Setup, noise: u32) -> Option<Given> {
    let before = into_a_run(setup.n);
    let steps = [Call::Step, Call::Step, Call::Step];
    let behind = [each_call(), steps.to_vec(), each_call()].concat();
    let list = List {
        setup,
        odd: None,
        calls: [before.clone(), behind.clone()].concat(),
    };
    let observed = lists::observe(&list);
    let (reached, seen) = observed.calls.split_at_checked(before.len())?;
    let (state, counters) = reached
        .last()
        .map(|seen| (seen.state.clone(), seen.counters))?;
    let lines = seen
        .iter()
        .map(|s| words::line(&s.answer, &s.counters, &s.state));
    let first = words::given_line(&counters, &state);
    Some(Given {
        lines: std::iter::once(first).chain(lines).collect(),
        answers: seen.iter().map(|s| (s.answer.clone(), s.origin)).collect(),
        judge: observed.judge,
        origin: Origin::Rust,
        calls: behind,
        state,
        counters,
        noise,
    })
}

/// This state with a wrong record in the first, the middle and the last process, in every way; one of the
/// calls on each.
fn wrong(state: &State, counters: &Counters) -> Vec<Given> {
    let last = state.inbound.len() - 1;
    let mut places = vec![0, last / 2, last];
    places.dedup();
    let ways = places.into_iter().flat_map(|p| {
        let ticks = generate::wrong_records(state.inbound[p]);
        ticks.into_iter().map(move |tick| (p, tick))
    });
    let mut calls = each_call().into_iter().cycle();
    ways.map(|way| {
        let mut state = state.clone();
        state.inbound = with_record(state.inbound, Some(way));
        let call = calls.by_ref().take(1).collect();
        refused(state, *counters, call, 0)
    })
    .collect()
}

/// This state with a lookahead of 0 on its first edge, one in the middle and its last; one of the calls on each.
fn without_lookahead(state: &State, counters: &Counters) -> Vec<Given> {
    let Some(last) = state.edges.len().checked_sub(1) else {
        return vec![];
    };
    let mut places = vec![0, last / 2, last];
    places.dedup();
    let calls = each_call().into_iter().cycle();
    let each = places.into_iter().zip(calls);
    each.map(|(at, call)| {
        let mut state = state.clone();
        state.edges[at].lookahead = 0;
        refused(state, *counters, vec![call], 0)
    })
    .collect()
}

/// All of them.
pub fn all() -> Vec<Given> {
    let mut all = vec![];
    for setup in setups() {
        let reached = |noise| right(setup.clone(), noise).expect("the original gets into this run");
        let [plain, beyond] = [0, BEYOND].map(reached);
        all.extend(wrong(&plain.state, &plain.counters));
        all.extend(without_lookahead(&plain.state, &plain.counters));
        all.extend([plain, beyond]);
    }
    all
}
