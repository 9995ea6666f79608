//! Hand back: document 01, "Step and hand back", rows 11, 12, 25, 26, then 27 to 33, 19, 18, 24
//! (HandBack.antt).
use crate::answers::{Answer, Refusal};
use crate::calls::{Emission, Out};
use crate::pending::route;
use crate::state::{
    Counters, Event, Message, State, Stored, MOST, MOST_PAYLOAD, MOST_PENDING, MOST_PROCESSES,
};
use crate::step::poison;
use crate::variant::{Rules, Variant};

fn failed(mask: u64, p: u32) -> bool {
    u64::from(p) < MOST_PROCESSES && mask >> p & 1 == 1
}

/// "emitters fall"
fn fall(xs: &[Emission]) -> bool {
    xs.windows(2).any(|pair| pair[1].emitter < pair[0].emitter)
}

fn in_batch(batch: &[Event], p: u32) -> bool {
    batch.iter().any(|e| e.destination == p)
}

/// "Malformed: emitters fall, an emitter or failed process isn't in the batch, a failed one has
/// emissions, a payload is above 16."
pub fn malformed(batch: &[Event], mask: u64, xs: &[Emission]) -> bool {
    fall(xs)
        || xs.iter().any(|x| !in_batch(batch, x.emitter))
        || (0..MOST_PROCESSES as u32).any(|p| failed(mask, p) && !in_batch(batch, p))
        || xs.iter().any(|x| failed(mask, x.emitter))
        || xs.iter().any(|x| x.message.payload.length() > MOST_PAYLOAD)
}

impl Rules {
    /// A.4: "minimum ticks and 31 use it": the lookahead of the edge that an emission of p goes along.
    fn lookahead_along(self, s: &State, p: u32, m: &Message) -> u128 {
        let mut edges = s.edges.iter();
        let edge = match self.variant() {
            Variant::MinimumByPlan => None,
            Variant::MinimumByFirstInbound => edges.find(|e| e.destination == m.destination),
            Variant::MinimumByFirstOfRow => edges.find(|e| e.source == p),
            _ => edges.find(|e| e.source == p && e.destination == m.destination),
        };
        edge.map_or(s.lookahead, |e| e.lookahead)
    }

    /// "The minimum tick is the event's tick for an emission to oneself, else that tick + L." None
    /// above the largest tick.
    fn minimum(self, lookahead: u128, p: u32, tick: u128, m: &Message) -> Option<u128> {
        if m.destination == p && !self.wrong(Variant::LookaheadToOneself) {
            Some(tick)
        } else {
            tick.checked_add(lookahead)
        }
    }

    /// 28 to 32 of an emission of the process p, whose event has this tick.
    fn message_rows(self, s: &State, p: u32, tick: u128, m: &Message) -> Option<Refusal> {
        if m.source != p {
            return Some(Refusal::OutboundSourceMismatch(p, m.source));
        }
        if u64::from(m.destination) >= s.n {
            return Some(Refusal::UnknownOutboundDestination(m.destination));
        }
        if !route(&s.edges, p, m.destination) {
            return Some(Refusal::OutboundRouteMissing(p, m.destination));
        }
        let lookahead = self.lookahead_along(s, p, m);
        let Some(minimum) = self.minimum(lookahead, p, tick, m) else {
            let told = match self.variant() {
                Variant::OverflowTellsPlan => s.lookahead,
                _ => lookahead,
            };
            return Some(Refusal::LookaheadOverflow(p, tick, told));
        };
        let below = match self.variant() {
            Variant::MinimumRefused => m.tick <= minimum,
            _ => m.tick < minimum,
        };
        below.then_some(Refusal::OutboundLookaheadViolation(
            p, tick, m.tick, minimum,
        ))
    }

    /// 33: "straggler: emission below the destination's local horizon"
    fn straggler_row(self, s: &State, m: &Message) -> Option<Refusal> {
        let horizon = s.horizons.get(m.destination as usize).copied();
        let horizon = horizon.unwrap_or(0);
        let below = match self.variant() {
            Variant::StragglerAtHorizon => m.tick <= horizon,
            Variant::NoStraggler => false,
            _ => m.tick < horizon,
        };
        below.then_some(Refusal::Straggler(m.destination, m.tick, horizon))
    }

    /// "for its emissions in turn, 28 to 33": those of the event e in hand.
    fn emission_rows(self, s: &State, e: &Event, xs: &[Emission]) -> Option<Refusal> {
        xs.iter()
            .filter(|x| x.emitter == e.destination)
            .find_map(|x| {
                let refused = self.message_rows(s, x.emitter, e.tick, &x.message);
                refused.or_else(|| self.straggler_row(s, &x.message))
            })
    }

    /// "process by process in id order 27 and, for its emissions in turn, 28 to 33 (so an earlier
    /// process's bad emission comes before a later one's failure)"
    fn process_rows(self, s: &State, mask: u64, xs: &[Emission]) -> Option<Refusal> {
        let failure = |e: &Event| {
            let refusal = Refusal::HandlerFailed(e.destination);
            failed(mask, e.destination).then_some(refusal)
        };
        if self.wrong(Variant::FailuresFirst) {
            let failures = s.batch.iter().find_map(failure);
            return failures.or_else(|| s.batch.iter().find_map(|e| self.emission_rows(s, e, xs)));
        }
        let mut batch = s.batch.iter();
        batch.find_map(|e| failure(e).or_else(|| self.emission_rows(s, e, xs)))
    }

    /// "then 19, then 18". "Freed event places count as free again": the batch is pending no more.
    fn room_rows(self, s: &State, xs: &[Emission]) -> Option<Refusal> {
        let freed_counts = match self.variant() {
            Variant::FreedPlacesCount => s.batch.len(),
            _ => 0,
        };
        let full = s.pending.len() + xs.len() + freed_counts > MOST_PENDING;
        let last = u128::from(s.next) + xs.len() as u128;
        let over = match self.variant() {
            Variant::SequenceOverflowEarly => last >= u128::from(MOST),
            _ => last > u128::from(MOST),
        };
        let full = full.then_some(Refusal::QueueFull);
        let over = over.then_some(Refusal::EventSequenceOverflow);
        match self.variant() {
            Variant::FullBeforeSequence => full.or(over),
            _ => over.or(full),
        }
    }

    fn back_rows(self, s: &State, mask: u64, xs: &[Emission]) -> Option<Refusal> {
        if self.wrong(Variant::RefusesAll) || self.foreign(s) {
            return Some(Refusal::ForeignState);
        }
        if s.poisoned {
            return Some(Refusal::Poisoned);
        }
        if s.batch.is_empty() {
            return Some(Refusal::NoBatch);
        }
        malformed(&s.batch, mask, xs).then_some(Refusal::MalformedReply)
    }

    /// "Handled, emitted and remote (..) grow by their counts, .. rounds by 1; the worker count is
    /// the largest batch so far."
    fn count_round(self, mut c: Counters, batch: &[Event], xs: &[Emission]) -> Counters {
        let is_remote = |x: &&Emission| {
            x.message.destination != x.message.source || self.wrong(Variant::RemoteCountsAll)
        };
        let handled = batch.len() as u64;
        c.handled = self.raise(c.handled, handled);
        c.emitted = self.raise(c.emitted, xs.len() as u64);
        c.remote = self.raise(c.remote, xs.iter().filter(is_remote).count() as u64);
        if !self.wrong(Variant::RoundsAlwaysZero) {
            c.rounds = self.raise(c.rounds, 1);
        }
        c.worker_count = match self.variant() {
            Variant::WorkersOfLastBatch => handled,
            _ => c.worker_count.max(handled),
        };
        c
    }

    /// "After all checks, everything is queued in list order", used grows "by the events handled".
    fn handled(self, mut s: State, xs: &[Emission]) -> State {
        let mut messages: Vec<Message> = xs.iter().map(|x| x.message).collect();
        if self.wrong(Variant::EmissionsReversed) {
            messages.reverse();
        }
        self.queue(&mut s.pending, s.next, &messages);
        s.next = s.next.saturating_add(xs.len() as u64);
        s.used = s.used.saturating_add(s.batch.len() as u64);
        s.batch.clear();
        s
    }

    /// "Then 24 if used >= budget and an event is eligible, without refresh; else refresh and answer
    /// Committed."
    fn commit(self, s: State, c: Counters, at: Stored, xs: &[Emission]) -> Out {
        let c = self.count_round(c, &s.batch, xs);
        let mut s = self.handled(s, xs);
        let inbound = s.inbound.clone();
        if self.spent(&s, at) {
            if self.wrong(Variant::RefreshBeforeSpent) {
                s = self.refreshed(s, at.horizon, &inbound);
            }
            s.running = self.wrong(Variant::SpentKeepsRun);
            return Out::refuse(Refusal::EventBudgetExceeded(at.budget), s, c);
        }
        let s = self.refreshed(s, at.horizon, &inbound);
        Out::new(Answer::Committed(s.gvt), s, c)
    }

    /// What the last column calls "poisoned".
    fn lose(self, mut s: State, mut c: Counters, refusal: Refusal, xs: &[Emission]) -> Out {
        if self.wrong(Variant::HandledBeforeChecks) {
            c.handled = self.raise(c.handled, s.batch.len() as u64);
        }
        if self.wrong(Variant::PartQueued) {
            let good = |x: &&Emission| {
                let emitter = s.batch.iter().find(|e| e.destination == x.emitter);
                emitter.is_some_and(|e| self.emission_rows(&s, e, &[**x]).is_none())
            };
            let part: Vec<Message> = xs.iter().take_while(good).map(|x| x.message).collect();
            self.queue(&mut s.pending, s.next, &part);
            s.next = s.next.saturating_add(part.len() as u64);
        }
        let batch = s.batch.clone();
        let mut s = poison(s);
        if self.wrong(Variant::PoisonKeepsBatch) {
            s.batch = batch;
        }
        s.running &= !self.wrong(Variant::PoisonClosesRun);
        Out::refuse(refusal, s, c)
    }

    pub fn hand_back(self, mut s: State, c: Counters, mask: u64, xs: &[Emission]) -> Out {
        if let Some(refusal) = self.back_rows(&s, mask, xs) {
            if self.wrong(Variant::MalformedLosesBatch) {
                s.batch.clear();
            }
            return Out::refuse(refusal, s, c);
        }
        let lost = self.process_rows(&s, mask, xs);
        if let Some(refusal) = lost.or_else(|| self.room_rows(&s, xs)) {
            return self.lose(s, c, refusal, xs);
        }
        match s.stored {
            None => Out::refuse(Refusal::NoBatch, s, c),
            Some(at) => self.commit(s, c, at, xs),
        }
    }
}
