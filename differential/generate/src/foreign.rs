//! States that 11 refuses, each by one clause of its sentence.
use crate::dice::Dice;
use crate::lists::stored_list;
use model::{
    with_record, Counters, Edge, Event, Host, Message, Payload, Rules, State, Stored, TOP,
};

/// How many clauses there are below.
pub const CLAUSES: u64 = 27;

fn event(s: &State, destination: u32) -> Event {
    let message = Message {
        source: destination,
        destination,
        tick: 7,
        payload: Payload::of(&[1, 2]),
    };
    message.numbered(s.next.saturating_sub(1))
}

/// One more event is pending, behind the others.
fn push_pending(s: &mut State) {
    let last = s.n.clamp(1, 64) as u32 - 1;
    let mut more = event(s, last);
    more.tick = TOP;
    more.sequence = s.next;
    s.next += 1;
    s.pending.push(more);
}

/// An open run, and an event of process 0 in hand.
fn hold_batch(s: &mut State) {
    s.running = true;
    s.stored = Some(Stored {
        horizon: 9,
        budget: 9,
    });
    s.batch = vec![event(s, 0)];
}

/// One more edge, with the plan's lookahead.
fn edge(s: &State, source: u32, destination: u32) -> Edge {
    Edge {
        source,
        destination,
        lookahead: s.lookahead,
        bound: 3,
    }
}

/// What a record may wrongly have where a process's least inbound bound is this: one more, one less,
/// another half, none at all and the largest tick.
pub fn wrong_records(right: u128) -> Vec<u128> {
    let (more, less) = (right.wrapping_add(1), right.wrapping_sub(1));
    let wrong = [more, less, right ^ 1 << 64, right ^ 1 << 127, 0, TOP];
    let mut wrong: Vec<u128> = wrong.into_iter().filter(|tick| *tick != right).collect();
    wrong.sort_unstable();
    wrong.dedup();
    wrong
}

/// A process whose record is wrong, and what the record has: of the first, the last or any one.
pub fn wrong_record(dice: &mut Dice, which: u64, inbound: &[u128]) -> Option<(usize, u128)> {
    let last = inbound.len().checked_sub(1)?;
    let p = match which {
        0 => 0,
        1 => last,
        _ => dice.index(inbound.len()),
    };
    Some((p, dice.pick(&wrong_records(inbound[p]))))
}

/// An edge whose lookahead is 0: the first, the last or any one. Nothing where there is no edge.
fn zero_lookahead(dice: &mut Dice, which: u64, edges: &mut [Edge]) {
    let any = dice.index(edges.len());
    let edge = match which {
        0 => edges.first_mut(),
        1 => edges.last_mut(),
        _ => edges.get_mut(any),
    };
    if let Some(edge) = edge {
        edge.lookahead = 0;
    }
}

/// Breaks one clause. The limits of counts and lengths, and ids, have several; of the last six, three are
/// A.2's and three A.4's. But for A.2's, the record is that of the edges.
fn break_clause(dice: &mut Dice, clause: u64, s: &mut State) {
    let n = s.n as u32;
    let strange = n + dice.below(2) as u32;
    match clause {
        0 => s.n = 0,
        1 => s.n = dice.pick(&[65, 66, u64::MAX]),
        2 => s.lookahead = 0,
        3 => s.edges = vec![edge(s, 0, 1); 513],
        4 => {
            while s.pending.len() < 513 {
                push_pending(s);
            }
        }
        5 => {
            hold_batch(s);
            s.batch = (0..65).map(|p| event(s, p)).collect();
        }
        6 => {
            push_pending(s);
            let last = s.pending.len() - 1;
            s.pending[last].payload = Payload::new(17, [3; 16]);
        }
        7 => {
            hold_batch(s);
            s.batch[0].payload = Payload::new(u64::MAX, [3; 16]);
        }
        8 => s.edges.push(edge(s, strange, 0)),
        9 => s.edges.push(edge(s, 0, strange)),
        10 => {
            push_pending(s);
            let last = s.pending.len() - 1;
            s.pending[last].source = strange;
        }
        11 => {
            push_pending(s);
            let last = s.pending.len() - 1;
            s.pending[last].destination = strange;
        }
        12 => {
            hold_batch(s);
            s.batch[0].source = strange;
        }
        13 => {
            hold_batch(s);
            s.batch[0].destination = strange;
        }
        14 => s.edges.extend([edge(s, 0, n - 1); 2]),
        15 => s.edges.push(edge(s, 0, 0)),
        16 => {
            push_pending(s);
            let last = s.pending[s.pending.len() - 1];
            s.pending.push(last);
        }
        17 => {
            push_pending(s);
            s.next -= 1;
        }
        18 => {
            let budget = dice.below(3);
            s.stored = Some(Stored {
                horizon: TOP,
                budget,
            });
        }
        19 => {
            s.running = true;
            s.stored = None;
        }
        20 => {
            hold_batch(s);
            s.running = dice.one_in(2);
            if s.running {
                s.batch.push(s.batch[0]);
            }
        }
        24.. => zero_lookahead(dice, clause - 24, &mut s.edges),
        _ => {}
    }
    s.horizons.resize(s.n.min(64) as usize, 0);
    let inbound = Rules::RIGHT.inbound_of(s.n, &s.edges);
    let wrong = match clause {
        21..=23 => wrong_record(dice, clause - 21, &inbound),
        _ => None,
    };
    s.inbound = with_record(inbound, wrong);
}

/// A state that a list of calls left, with one clause broken; and its counters.
pub fn foreign(dice: &mut Dice, clause: u64, mixed: bool) -> Option<(State, Counters)> {
    let number = 6 + dice.below(1000);
    let list = stored_list(dice, number, mixed);
    let mut host = Host::build(Rules::RIGHT, &list.setup).ok()?;
    for call in &list.calls {
        host.call(call);
    }
    let clause = clause % CLAUSES;
    if clause >= 24 && host.state.edges.is_empty() {
        return None;
    }
    break_clause(dice, clause, &mut host.state);
    Some((host.state, host.counters))
}
