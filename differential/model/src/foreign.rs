//! 11: "A foreign state has ..". One clause for each part of document 01's sentence, in its order, and
//! one each for A.2's and A.4's (Foreign.antt).
use crate::state::{
    Edge, Event, State, MOST_EDGES, MOST_PAYLOAD, MOST_PENDING, MOST_PROCESSES, TOP,
};
use crate::variant::{Rules, Variant};
use std::collections::BTreeSet;

/// "a count or length over its limit"
fn over_limit(s: &State) -> bool {
    let long = |e: &Event| e.payload.length() > MOST_PAYLOAD;
    s.edges.len() > MOST_EDGES
        || s.pending.len() > MOST_PENDING
        || s.batch.len() as u64 > MOST_PROCESSES
        || s.pending.iter().any(long)
        || s.batch.iter().any(long)
}

/// "an id not below n"
fn strange_id(s: &State) -> bool {
    let strange = |id: u32| u64::from(id) >= s.n;
    let strange_event = |e: &Event| strange(e.source) || strange(e.destination);
    let strange_edge = |e: &Edge| strange(e.source) || strange(e.destination);
    s.edges.iter().any(strange_edge)
        || s.pending.iter().any(strange_event)
        || s.batch.iter().any(strange_event)
}

/// "an edge twice or to its own source"
fn bad_edges(edges: &[Edge]) -> bool {
    let mut seen = BTreeSet::new();
    edges
        .iter()
        .any(|e| e.source == e.destination || !seen.insert((e.source, e.destination)))
}

impl Rules {
    /// A.4: "A state with an edge lookahead of 0 is foreign."
    fn zero_lookahead(self, edges: &[Edge]) -> bool {
        let looked_at = match self.variant() {
            Variant::ForeignWithoutEdgeLookahead => 0..0,
            Variant::ForeignFirstEdgeLookahead => 0..edges.len().min(1),
            Variant::ForeignLastEdgeLookaheadUnseen => 0..edges.len().saturating_sub(1),
            _ => 0..edges.len(),
        };
        edges[looked_at].iter().any(|e| match self.variant() {
            Variant::ForeignEdgeLookaheadByLowerHalf => e.lookahead as u64 == 0,
            _ => e.lookahead == 0,
        })
    }

    pub fn foreign(self, s: &State) -> bool {
        let by_process = |pair: &[Event]| pair[0].destination < pair[1].destination;
        let at_top = s.stored.is_some_and(|stored| stored.horizon == TOP);
        s.n == 0
            || s.n > MOST_PROCESSES
            || s.lookahead == 0
            || over_limit(s)
            || strange_id(s)
            || bad_edges(&s.edges)
            || !s
                .pending
                .windows(2)
                .all(|pair| self.before(&pair[0], &pair[1]))
            || s.pending.iter().any(|e| e.sequence >= s.next)
            || (at_top && !self.wrong(Variant::ForeignWithoutHorizon))
            || (s.running && s.stored.is_none())
            || (!s.batch.is_empty() && !s.running)
            || !s.batch.windows(2).all(by_process)
            || self.wrong_record(s)
            || self.zero_lookahead(&s.edges)
            || s.horizons.len() as u64 != s.n
            || s.inbound.len() as u64 != s.n
    }
}
