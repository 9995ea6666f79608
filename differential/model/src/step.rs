//! Step: document 01, "Step and hand back", rows 11, 12, 23, 24 (Step.antt).
use crate::answers::{Answer, Refusal};
use crate::calls::Out;
use crate::pending::{first_tick, without_first};
use crate::refresh::exclusive;
use crate::state::{Counters, Edge, Event, State, Stored, TOP};
use crate::variant::{Rules, Variant};

/// The events taken, and those left pending.
struct Taken {
    events: Vec<Event>,
    left: Vec<Event>,
}

/// How many bounds of the second list are above those of the first.
fn count_raised(old: &[Edge], new: &[Edge]) -> u64 {
    let pairs = old.iter().zip(new);
    pairs.filter(|(o, n)| o.bound < n.bound).count() as u64
}

/// Whether a local horizon rose.
fn any_raised(old: &[u128], new: &[u128]) -> bool {
    old.iter().zip(new).any(|(o, n)| o < n)
}

/// What the last column calls "poisoned": "the batch is lost, poisoned is set, all else stands."
pub fn poison(mut s: State) -> State {
    s.batch.clear();
    s.poisoned = true;
    s
}

impl Rules {
    /// "local horizon h(p) .. rises to min(safe(p), first pending tick or H)"
    fn aim(self, s: &State, inbound: &[u128], h: u128, p: u32) -> u128 {
        let safe = self.safe(inbound, h, p);
        safe.min(first_tick(&s.pending, p, h))
    }

    /// The processes in the order in which events are taken: "in id order".
    fn taking_order(self, s: &State) -> Vec<u32> {
        let mut order: Vec<u32> = s.processes().collect();
        if self.wrong(Variant::TakenByTick) {
            order.sort_by_key(|&p| first_tick(&s.pending, p, TOP));
        }
        order
    }

    /// "in id order, take the first eligible event of each process while used + taken < budget":
    /// `room` is budget - used.
    fn take(self, s: &State, h: u128, room: u64) -> Taken {
        if self.wrong(Variant::EverythingAtOnce) {
            return Taken {
                events: s.pending.clone(),
                left: vec![],
            };
        }
        let mut taken = Taken {
            events: vec![],
            left: s.pending.clone(),
        };
        for p in self.taking_order(s) {
            if let Some(event) = self.eligible(&s.inbound, h, &taken.left, p) {
                if taken.events.len() as u64 >= room {
                    break;
                }
                without_first(&mut taken.left, p);
                taken.events.push(event);
            }
        }
        taken
    }

    fn taken_at(self, s: &State, at: Stored) -> Taken {
        let room = at.budget.saturating_sub(s.used);
        let room = match self.variant() {
            Variant::RoomForOneMore => room.saturating_add(1),
            Variant::BudgetForgotten => at.budget,
            _ => room,
        };
        self.take(s, exclusive(at.horizon), room)
    }

    /// A.4: "edge bounds .. use it".
    fn lookahead_of(self, s: &State, edge: &Edge) -> u128 {
        let mut row = s.edges.iter().filter(|e| e.source == edge.source);
        match self.variant() {
            Variant::BoundByPlan => s.lookahead,
            Variant::BoundByFirstOfRow => row.next().map_or(s.lookahead, |e| e.lookahead),
            _ => edge.lookahead,
        }
    }

    /// "each edge bound from s rises to min(H, min(safe(s), first pending tick or H) + L), or to H
    /// on overflow."
    fn bound_to(self, s: &State, inbound: &[u128], h: u128, edge: &Edge) -> u128 {
        let aim = self.aim(s, inbound, h, edge.source);
        let lookahead = self.lookahead_of(s, edge);
        match aim.checked_add(lookahead) {
            None if self.wrong(Variant::OverflowWraps) => aim.wrapping_add(lookahead),
            None => h,
            Some(sum) if self.wrong(Variant::BoundNotCapped) => sum,
            Some(sum) => sum.min(h),
        }
    }

    /// "All read safe as it was before."
    fn new_edges(self, s: &State, h: u128) -> Vec<Edge> {
        let mut edges = s.edges.clone();
        for at in 0..edges.len() {
            let late = self.wrong(Variant::SafeReadLate);
            let late = late.then(|| self.inbound_of(s.n, &edges));
            let inbound = late.as_ref().unwrap_or(&s.inbound);
            let to = self.bound_to(s, inbound, h, &edges[at]);
            edges[at].bound = match self.variant() {
                Variant::BoundFalls => to,
                _ => edges[at].bound.max(to),
            };
        }
        edges
    }

    fn new_horizons(self, s: &State, h: u128) -> Vec<u128> {
        let horizons = s.horizons.iter().zip(0..);
        horizons
            .map(|(&horizon, p)| horizon.max(self.aim(s, &s.inbound, h, p)))
            .collect()
    }

    /// The record made anew, of the edges as they are now.
    fn new_inbound(self, s: &State, edges: &[Edge]) -> Vec<u128> {
        match self.variant() {
            Variant::RecordNotUpdated => s.inbound.clone(),
            Variant::RecordBeforeLastBound => {
                let mut early = edges.to_vec();
                if let (Some(to), Some(from)) = (early.last_mut(), s.edges.last()) {
                    *to = *from;
                }
                self.inbound_of(s.n, &early)
            }
            Variant::RecordByFirstProcess => {
                let mut inbound = s.inbound.clone();
                let anew = self.inbound_of(s.n, edges).into_iter().take(1);
                inbound.splice(..1, anew);
                inbound
            }
            _ => self.inbound_of(s.n, edges),
        }
    }

    /// "Each bound raised is one null message."
    fn nulls_of(self, old: &[Edge], new: &[Edge]) -> u64 {
        if self.wrong(Variant::NullsByProcess) {
            let raised = old.iter().zip(new).filter(|(o, n)| o.bound < n.bound);
            let mut sources: Vec<u32> = raised.map(|(o, _)| o.source).collect();
            sources.dedup();
            return sources.len() as u64;
        }
        count_raised(old, new)
    }

    /// "If anything rose, rounds + 1."
    fn count_advance(self, mut c: Counters, null_messages: u64) -> Counters {
        if !self.wrong(Variant::RoundsAlwaysZero) {
            c.rounds = self.raise(c.rounds, 1);
        }
        c.null_messages = self.raise(c.null_messages, null_messages);
        c
    }

    /// "every h >= H and every pending tick >= H"
    fn complete(self, s: &State, h: u128) -> bool {
        s.horizons.iter().all(|&horizon| horizon >= h) && s.pending.iter().all(|e| e.tick >= h)
    }

    /// "If something rose, answer Advanced. If nothing rose, and [the run is complete], answer
    /// Finished and close the run; else poison and answer 12."
    fn advance(self, mut s: State, c: Counters, horizon: u128) -> Out {
        let h = exclusive(horizon);
        let edges = self.new_edges(&s, h);
        let horizons = self.new_horizons(&s, h);
        let null_messages = self.nulls_of(&s.edges, &edges);
        let rose = match self.variant() {
            Variant::HorizonsAreNoAdvance => null_messages > 0,
            _ => null_messages > 0 || any_raised(&s.horizons, &horizons),
        };
        let inbound = self.new_inbound(&s, &edges);
        let old = std::mem::replace(&mut s.inbound, inbound);
        s.edges = edges;
        s.horizons = horizons;
        let mut s = self.refreshed(s, horizon, &old);
        if rose {
            let c = self.count_advance(c, null_messages);
            return Out::new(Answer::Advanced(s.gvt), s, c);
        }
        if self.complete(&s, h) {
            s.running = false;
            let c = match self.variant() {
                Variant::FinishedIsARound => self.count_advance(c, 0),
                _ => c,
            };
            return Out::new(Answer::Finished(s.gvt), s, c);
        }
        Out::refuse(Refusal::Poisoned, poison(s), c)
    }

    /// "used >= budget and an event is eligible"
    pub fn spent(self, s: &State, at: Stored) -> bool {
        let eligible = self.any_eligible(s, exclusive(at.horizon));
        s.used >= at.budget && (eligible || self.wrong(Variant::SpentBeforeEligible))
    }

    /// "If any was taken, answer the batch. Else if used >= budget and an event is eligible, 24.
    /// Else advance". 24 leaves "run closed, otherwise as reached".
    fn step_run(self, mut s: State, c: Counters, at: Stored) -> Out {
        if self.wrong(Variant::FinishedAtOnce) {
            s.running = false;
            return Out::new(Answer::Finished(s.gvt), s, c);
        }
        if self.wrong(Variant::AdvancedAlways) {
            return Out::new(Answer::Advanced(s.gvt), s, c);
        }
        let taken = self.taken_at(&s, at);
        if !taken.events.is_empty() {
            s.batch = taken.events.clone();
            s.pending = taken.left;
            return Out::new(Answer::Batch(taken.events, s.gvt), s, c);
        }
        if self.spent(&s, at) {
            s.running = false;
            return Out::refuse(Refusal::EventBudgetExceeded(at.budget), s, c);
        }
        self.advance(s, c, at.horizon)
    }

    fn step_rows(self, s: &State) -> Option<Refusal> {
        if self.wrong(Variant::RefusesAll) || self.foreign(s) {
            return Some(Refusal::ForeignState);
        }
        if s.poisoned {
            return Some(Refusal::Poisoned);
        }
        (!s.running || !s.batch.is_empty()).then_some(Refusal::NothingToStep)
    }

    pub fn step(self, s: State, c: Counters) -> Out {
        if let Some(refusal) = self.step_rows(&s) {
            return Out::refuse(refusal, s, c);
        }
        match s.stored {
            None => Out::refuse(Refusal::NothingToStep, s, c),
            Some(at) => self.step_run(s, c, at),
        }
    }
}
