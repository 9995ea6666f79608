//! Document 01, "Frontiers", and A.2 of document 02: the record that frontiers are read from
//! (Frontiers.antt).
use crate::pending::first_of;
use crate::state::{Edge, Event, State, MOST_PROCESSES, TOP};
use crate::variant::{Rules, Variant};

/// What the record has for p.
fn recorded(inbound: &[u128], p: u32) -> u128 {
    inbound.get(p as usize).copied().unwrap_or(TOP)
}

impl Rules {
    /// A.2: "each process's least inbound bound .., and the largest tick for a process without
    /// inbound edges".
    fn least_inbound(self, edges: &[Edge], p: u32) -> u128 {
        let into = |e: &&Edge| match self.variant() {
            Variant::RecordBySource => e.source == p,
            _ => e.destination == p,
        };
        let least = edges.iter().filter(into).map(|e| e.bound).min();
        let none = match self.variant() {
            Variant::NoInboundIsZero => 0,
            _ => TOP,
        };
        least.unwrap_or(none)
    }

    /// The record of these edges. A state that is not foreign has at most 64 processes.
    pub fn inbound_of(self, n: u64, edges: &[Edge]) -> Vec<u128> {
        let processes = 0..n.min(MOST_PROCESSES) as u32;
        processes.map(|p| self.least_inbound(edges, p)).collect()
    }

    /// A.2: "A state where it is wrong is foreign".
    pub fn wrong_record(self, s: &State) -> bool {
        let n = s.processes().end;
        let looked_at = match self.variant() {
            Variant::ForeignWithoutRecord => 0..0,
            Variant::ForeignFirstRecord => 0..n.min(1),
            Variant::ForeignLastRecordUnseen => 0..n.saturating_sub(1),
            _ => 0..n,
        };
        looked_at.into_iter().any(|p| {
            let (recorded, least) = (recorded(&s.inbound, p), self.least_inbound(&s.edges, p));
            match self.variant() {
                Variant::ForeignLowRecordUnseen => recorded > least,
                Variant::ForeignHighRecordUnseen => recorded < least,
                Variant::ForeignRecordByLowerHalf => recorded as u64 != least as u64,
                _ => recorded != least,
            }
        })
    }

    /// A.2: "a frontier is read as the lesser of it and H".
    pub fn safe(self, inbound: &[u128], h: u128, p: u32) -> u128 {
        match self.variant() {
            Variant::FrontierWithoutHorizon => recorded(inbound, p),
            _ => recorded(inbound, p).min(h),
        }
    }

    /// "p's first event is eligible exactly when its tick < safe(p)."
    pub fn eligible(self, inbound: &[u128], h: u128, q: &[Event], p: u32) -> Option<Event> {
        let first = first_of(q, p)?;
        let safe = self.safe(inbound, h, p);
        let below = if self.wrong(Variant::EligibleAtSafe) {
            first.tick <= safe
        } else {
            first.tick < safe
        };
        below.then_some(*first)
    }

    /// "an event is eligible"
    pub fn any_eligible(self, s: &State, h: u128) -> bool {
        s.processes()
            .any(|p| self.eligible(&s.inbound, h, &s.pending, p).is_some())
    }
}
