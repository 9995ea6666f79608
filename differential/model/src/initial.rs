//! Add initial: rows 11, 12, then 13 to 19 (Initial.antt).
use crate::answers::{Answer, Refusal};
use crate::calls::Out;
use crate::pending::route;
use crate::state::{Counters, Message, State, MOST, MOST_PAYLOAD, MOST_PENDING};
use crate::variant::{Rules, Variant};

impl Rules {
    fn initial_rows(self, s: &State, m: &Message) -> Option<Refusal> {
        let closed = match self.variant() {
            Variant::ClosedByStoredHorizon => s.stored.is_some(),
            _ => !s.initial,
        };
        if self.wrong(Variant::RefusesAll) || self.foreign(s) {
            return Some(Refusal::ForeignState);
        }
        if self.wrong(Variant::ClosedBeforePoisoned) && closed {
            return Some(Refusal::InitialEventsAlreadyClosed);
        }
        if s.poisoned {
            return Some(Refusal::Poisoned);
        }
        if closed {
            return Some(Refusal::InitialEventsAlreadyClosed);
        }
        self.message_of_initial_rows(s, m)
    }

    /// 14 to 19.
    fn message_of_initial_rows(self, s: &State, m: &Message) -> Option<Refusal> {
        if u64::from(m.source) >= s.n {
            return Some(Refusal::UnknownInitialSource(m.source));
        }
        if u64::from(m.destination) >= s.n {
            return Some(Refusal::UnknownInitialDestination(m.destination));
        }
        if !route(&s.edges, m.source, m.destination) {
            return Some(Refusal::InitialRouteMissing(m.source, m.destination));
        }
        if m.payload.length() > MOST_PAYLOAD {
            return Some(Refusal::PayloadTooLong(m.payload.length()));
        }
        if s.pending.len() >= MOST_PENDING {
            return Some(Refusal::QueueFull);
        }
        (s.next == MOST).then_some(Refusal::EventSequenceOverflow)
    }

    /// "accepted, it gets the next sequence number from 0".
    pub fn add_initial(self, mut s: State, c: Counters, m: Message) -> Out {
        if let Some(refusal) = self.initial_rows(&s, &m) {
            return Out::refuse(refusal, s, c);
        }
        if !self.wrong(Variant::StoresNothing) {
            self.insert(m.numbered(s.next), &mut s.pending);
            s.next += 1;
        }
        Out::new(Answer::Accepted, s, c)
    }
}
