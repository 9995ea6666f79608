//! Document 01, "Rehearsals on paper", and of document 02 the chains of A.3 and lookaheads by edge (A.4).
use crate::lookaheads::lookaheads_alone;
use model::{lookahead_words, Call, Emission, List, Message, Payload, Setup, TOP};

/// A list of calls and how the lines of its answers begin, from build's on.
pub struct Rehearsal {
    pub name: &'static str,
    pub list: List,
    pub answers: Vec<String>,
}

fn setup(rows: &[&[u32]]) -> Setup {
    let n = rows.len() as u32;
    Setup {
        n: n.into(),
        lookahead: 3,
        ids: (0..n).collect(),
        sources: (0..n).collect(),
        counts: rows.iter().map(|row| row.len() as u64).collect(),
        destinations: rows.concat(),
        lookaheads: vec![],
    }
    .made_uniform()
}

fn message(source: u32, destination: u32, tick: u128) -> Message {
    Message {
        source,
        destination,
        tick,
        payload: Payload::default(),
    }
}

fn initial(source: u32, destination: u32, tick: u128) -> Call {
    Call::AddInitial(message(source, destination, tick))
}

fn begin(horizon: u128) -> Call {
    Call::Begin {
        horizon,
        budget: 1_000_000,
    }
}

fn without_budget(horizon: u128) -> Call {
    Call::Begin { horizon, budget: 0 }
}

/// What process p emits.
fn emits(p: u32, destination: u32, tick: u128) -> Call {
    Call::HandBack {
        mask: 0,
        emissions: vec![Emission {
            emitter: p,
            message: message(p, destination, tick),
        }],
    }
}

fn on(setup: Setup, name: &'static str, calls: Vec<Call>, answers: &[&str]) -> Rehearsal {
    Rehearsal {
        name,
        list: List {
            setup,
            odd: None,
            calls,
        },
        answers: answers.iter().map(|answer| answer.to_string()).collect(),
    }
}

/// On the edges 0→1 and 1→0.
fn pair(name: &'static str, calls: Vec<Call>, answers: &[&str]) -> Rehearsal {
    on(setup(&[&[1], &[0]]), name, calls, answers)
}

fn refused_rows(name: &'static str, row: &[u32], answer: &str) -> Rehearsal {
    on(setup(&[row, &[]]), name, vec![], &[answer])
}

const OK: &str = "accepted";

fn c1_to_c5() -> Vec<Rehearsal> {
    use Call::Step;
    vec![
        pair(
            "C1",
            vec![begin(9), Step, Step, Step, Step, Step],
            &[
                OK,
                OK,
                "advanced 2",
                "advanced 5",
                "advanced 8",
                "advanced 9",
                "finished 9",
            ],
        ),
        pair(
            "C2",
            vec![initial(0, 1, 3), begin(9), Step, Step],
            &[OK, OK, OK, "advanced 2", "batch 2"],
        ),
        pair(
            "C3",
            vec![initial(0, 1, 2), begin(9), Step],
            &[OK, OK, OK, "batch 0"],
        ),
        pair(
            "C4",
            vec![initial(0, 1, 2), without_budget(9), Step, Call::ReadGvt],
            &[OK, OK, OK, "refused 24 0", "gvt 0"],
        ),
        pair(
            "C5",
            vec![initial(0, 1, 3), without_budget(9), Step, Step],
            &[OK, OK, OK, "advanced 2", "refused 24 0"],
        ),
    ]
}

fn c6_to_c8() -> Vec<Rehearsal> {
    let back = |name, call, answer: &str| {
        let calls = vec![initial(0, 1, 2), begin(9), Call::Step, call];
        pair(name, calls, &[OK, OK, OK, "batch 0", answer])
    };
    vec![
        back("C6 at 2", emits(1, 1, 2), "committed"),
        back("C6 at 1", emits(1, 1, 1), "refused 32 1 2 1 2"),
        back("C7 at 5", emits(1, 0, 5), "committed"),
        back("C7 at 4", emits(1, 0, 4), "refused 32 1 2 4 5"),
        pair(
            "C8",
            vec![begin(TOP), initial(0, 1, 3), begin(TOP - 1)],
            &[OK, "refused 22 ffffffffffffffffffffffffffffffff", OK, OK],
        ),
    ]
}

fn c9_and_c10() -> Vec<Rehearsal> {
    use Call::Step;
    let last = TOP - 1;
    vec![
        on(
            setup(&[&[1], &[]]),
            "C9",
            vec![initial(0, 0, last), begin(last), Step, emits(0, 1, TOP)],
            &[
                OK, OK, OK, "batch 0", "refused 31 0 fffffffffffffffffffffffffffffffe 3",
            ],
        ),
        pair(
            "C10",
            vec![initial(1, 1, 2), initial(0, 1, 2), begin(9), Step],
            &[
                OK, OK, OK, OK,
                "batch 0 | 0 0 0 0 0 0 0 | 2 3 2 0 | 0:1:3:3 1:0:3:3 | 1:2:1:0: | 0 0 | 3 3 | 9 1000000 | 1:2:0:1: | 010",
            ],
        ),
    ]
}

/// "Horizon 6, Finished, then 5: 21; then 6: accepted. The 513th initial: 18. With row 1 empty, rows
/// 0:[1,1] 10; 0:[0] 9; 0:[2] 8."
fn the_rest() -> Vec<Rehearsal> {
    use Call::Step;
    let answers = [
        OK,
        OK,
        "advanced 2",
        "advanced 5",
        "advanced 6",
        "finished 6",
        "refused 21 6 5",
        OK,
    ];
    let mut crowd = vec![OK; 513];
    crowd.push("refused 18");
    vec![
        pair(
            "horizon 6, 5, 6",
            vec![begin(6), Step, Step, Step, Step, begin(5), begin(6)],
            &answers,
        ),
        pair("the 513th initial", vec![initial(0, 0, 2); 513], &crowd),
        refused_rows("0:[1,1]", &[1, 1], "refused 10 0 1"),
        refused_rows("0:[0]", &[0], "refused 9 0"),
        refused_rows("0:[2]", &[2], "refused 8 0 2"),
    ]
}

/// A.3: "Frontiers before the advance still decide". Along 0→1→2 the first advance raises the bounds to
/// 10 and 6; with frontiers read anew at each edge it would be 10 and 10. The same along 2→1→0, for a
/// program that goes through the edges from the other end.
fn chains() -> Vec<Rehearsal> {
    use Call::Step;
    let chain = |name, rows: &[&[u32]], first: &str| {
        let answers = [OK, OK, first, "advanced 5", "advanced 9", "finished 9"];
        on(
            setup(rows),
            name,
            vec![begin(9), Step, Step, Step, Step],
            &answers,
        )
    };
    vec![
        chain(
            "0→1→2",
            &[&[1], &[2], &[]],
            "advanced 2 | 0 0 0 1 2 0 0 | 3 3 0 2 | 0:1:3:a 1:2:3:6 |  | a 3 3",
        ),
        chain(
            "2→1→0",
            &[&[], &[0], &[1]],
            "advanced 2 | 0 0 0 1 2 0 0 | 3 3 0 2 | 1:0:3:6 2:1:3:a |  | 3 3 a",
        ),
    ]
}

/// These lookaheads in place of the plan's.
fn own(rows: &[&[u32]], lookaheads: &[u128]) -> Setup {
    Setup {
        lookaheads: lookahead_words(lookaheads.iter().copied()),
        ..setup(rows)
    }
}

/// A fast and a slow edge into one process: it waits for the fast one alone, and an emission's minimum goes by
/// the edge that it takes.
fn fast_and_slow() -> Vec<Rehearsal> {
    use Call::Step;
    let two = || own(&[&[2], &[2], &[]], &[1, 10]);
    let sent = |name, first: u128, second: u128, answer: &str| {
        let emission = |emitter, tick| Emission {
            emitter,
            message: message(emitter, 2, tick),
        };
        let back = Call::HandBack {
            mask: 0,
            emissions: vec![emission(0, first), emission(1, second)],
        };
        let calls = vec![initial(0, 0, 2), initial(1, 1, 2), begin(9), Step, back];
        on(two(), name, calls, &[OK, OK, OK, OK, "batch 0", answer])
    };
    vec![
        on(
            two(),
            "a fast and a slow edge",
            vec![begin(9), Step, Step, Step],
            &[
                "accepted | 0 0 0 0 0 0 0 | 3 3 0 0 | 0:2:1:1 1:2:a:a |",
                OK,
                "advanced 0 | 0 0 0 1 1 0 0 | 3 3 0 0 | 0:2:1:a 1:2:a:a |  | a a 1",
                "advanced 9",
                "finished 9",
            ],
        ),
        sent(
            "to the fast edge at 3, the slow one at 12",
            3,
            12,
            "committed",
        ),
        sent("to the fast edge at 2", 2, 12, "refused 32 0 2 2 3"),
        sent("to the slow edge at 11", 3, 11, "refused 32 1 2 b c"),
    ]
}

/// A fast cycle inside a slow graph: five rounds where the slow edges alone would make one. And lookaheads
/// beyond the horizon: bounds that start there never fall, and nothing is sent.
fn fast_cycle() -> Vec<Rehearsal> {
    use Call::Step;
    vec![
        on(
            own(&[&[1], &[0, 2], &[3], &[0]], &[1, 1, 8, 8, 8]),
            "a fast cycle",
            vec![begin(4), Step, Step, Step, Step, Step, Step],
            &[
                OK,
                OK,
                "advanced 0 | 0 0 0 1 2 0 0 | 4 3 0 0 | 0:1:1:2 1:0:1:2 1:2:8:8 2:3:8:8 3:0:8:8 |  | 1 1 5 5",
                "advanced 1",
                "advanced 2",
                "advanced 3",
                "advanced 4 | 0 0 0 5 8 0 0 | 4 3 0 4 |",
                "finished 4",
            ],
        ),
        on(
            own(&[&[1], &[0]], &[1 << 64, TOP]),
            "beyond the horizon",
            vec![begin(9), Step, Step],
            &[
                OK,
                OK,
                "advanced 9 | 0 0 0 1 0 0 0 | 2 3 0 9 | 0:1:10000000000000000:10000000000000000 1:0:ffffffffffffffffffffffffffffffff:ffffffffffffffffffffffffffffffff |",
                "finished 9",
            ],
        ),
    ]
}

/// 31 by one edge and not by another, with that edge's lookahead beside it.
fn overflow_by_edge() -> Vec<Rehearsal> {
    let last = TOP - 1;
    let sent = |name, to: u32, answer: &str| {
        let calls = vec![
            initial(0, 0, last),
            begin(last),
            Call::Step,
            emits(0, to, TOP),
        ];
        let rows: &[&[u32]] = &[&[1, 2], &[], &[]];
        on(
            own(rows, &[2, 1]),
            name,
            calls,
            &[OK, OK, OK, "batch 0", answer],
        )
    };
    vec![
        sent(
            "31 by one edge",
            1,
            "refused 31 0 fffffffffffffffffffffffffffffffe 2",
        ),
        sent("and not by another", 2, "committed"),
    ]
}

/// Rows of two processes, each a source with destinations and their lookaheads.
fn two_processes(rows: &[(u32, &[(u32, u128)])]) -> Setup {
    let targets = || rows.iter().flat_map(|row| row.1);
    Setup {
        sources: rows.iter().map(|row| row.0).collect(),
        counts: rows.iter().map(|row| row.1.len() as u64).collect(),
        destinations: targets().map(|target| target.0).collect(),
        lookaheads: lookahead_words(targets().map(|target| target.1)),
        ..setup(&[&[], &[]])
    }
}

/// "40 an edge lookahead of 0, after 10 for that edge": edge by edge and row by row.
fn no_edge_lookahead() -> Vec<Rehearsal> {
    type Rows<'a> = &'a [(u32, &'a [(u32, u128)])];
    let built = |name, rows: Rows, answer: &str| on(two_processes(rows), name, vec![], &[answer]);
    vec![
        built("40", &[(0, &[(1, 0)]), (1, &[])], "refused 40"),
        built("40 by both halves", &[(0, &[(1, 1 << 64)]), (1, &[])], OK),
        built("8 before 40", &[(0, &[(7, 0)]), (1, &[])], "refused 8 0 7"),
        built("9 before 40", &[(0, &[(0, 0)]), (1, &[])], "refused 9 0"),
        built(
            "10 before 40",
            &[(0, &[(1, 3), (1, 0)]), (1, &[])],
            "refused 10 0 1",
        ),
        built(
            "40 before a later edge's 8",
            &[(0, &[(1, 0), (7, 3)]), (1, &[])],
            "refused 40",
        ),
        built(
            "40 before a later edge's 9",
            &[(0, &[(1, 0), (0, 3)]), (1, &[])],
            "refused 40",
        ),
        built(
            "40 before a later edge's 10",
            &[(0, &[(1, 0), (1, 3)]), (1, &[])],
            "refused 40",
        ),
        built(
            "an earlier edge's 8 before 40",
            &[(0, &[(7, 3), (1, 0)]), (1, &[])],
            "refused 8 0 7",
        ),
        built(
            "40 before a later row's 8",
            &[(0, &[(1, 0)]), (1, &[(7, 3)])],
            "refused 40",
        ),
        built(
            "40 before a later row's 7",
            &[(0, &[(1, 0)]), (1, &[]), (2, &[(0, 3)])],
            "refused 40",
        ),
        built(
            "7 before its row's 40",
            &[(0, &[(1, 3)]), (1, &[]), (2, &[(0, 0)])],
            "refused 7 2",
        ),
        built("6 before 40", &[(0, &[(1, 0)])], "refused 6 1"),
    ]
}

/// 2 is of the plan's lookahead; 5 also where lookaheads have not exactly two words for each destination.
fn other_lookahead_words() -> Vec<Rehearsal> {
    let good = || two_processes(&[(0, &[(1, 5)]), (1, &[(0, 6)])]);
    let refused = |name, setup: Setup, answer: &str| on(setup, name, vec![], &[answer]);
    let words = |name, count: usize, answer: &str| {
        let mut setup = good();
        setup.lookaheads.resize(count, 4);
        refused(name, setup, answer)
    };
    let mut rowless = two_processes(&[(0, &[(1, 0)])]);
    rowless.lookaheads.pop();
    let mut without_id = rowless.clone();
    without_id.ids = vec![0];
    let mut none = two_processes(&[(0, &[(1, 0)]), (1, &[])]);
    none.lookahead = 0;
    vec![
        words("a word for each half", 4, OK),
        words("a word too few", 3, "refused 5"),
        words("a word for each destination", 2, "refused 5"),
        words("no lookaheads", 0, "refused 5"),
        words("a word too many", 5, "refused 5"),
        words("a lookahead too many", 6, "refused 5"),
        refused("5 before 6 and 40", rowless, "refused 5"),
        refused("4 before 5", without_id, "refused 4 2 0"),
        refused("2 before 40", none, "refused 2"),
        refused("8,192 lookahead words", lookaheads_alone(8192), "refused 5"),
    ]
}

/// The rehearsals of document 01, and those of A.3 and A.4.
pub fn rehearsals() -> Vec<Rehearsal> {
    let mut all = c1_to_c5();
    all.extend(c6_to_c8());
    all.extend(c9_and_c10());
    all.extend(the_rest());
    all.extend(chains());
    all.extend(fast_and_slow());
    all.extend(fast_cycle());
    all.extend(overflow_by_edge());
    all.extend(no_edge_lookahead());
    all.extend(other_lookahead_words());
    all
}
