//! Calls, and what one gives (Calls.antt, Rows.antt).
use crate::answers::{Answer, Entity, Refusal};
use crate::state::{Counters, Message, State};
use crate::variant::Rules;

/// An emission record of a reply, with its emitter.
#[derive(Clone, Copy, Debug, Eq, PartialEq)]
pub struct Emission {
    pub emitter: u32,
    pub message: Message,
}

#[derive(Clone, Debug, Eq, PartialEq)]
pub enum Call {
    AddInitial(Message),
    Begin {
        horizon: u128,
        budget: u64,
    },
    Step,
    HandBack {
        mask: u64,
        emissions: Vec<Emission>,
    },
    ReadGvt,
    ReadCounters,
    ReadPending,
    ReadEarliest,
    /// The lent list has `lent` places, which hold 0:0.
    Plan {
        n: u64,
        lookahead: u128,
        lent: u64,
        entities: Vec<Entity>,
    },
}

/// What a call on a state gives: its answer, the state and the counters left.
#[derive(Clone, Debug, Eq, PartialEq)]
pub struct Out {
    pub answer: Answer,
    pub after: State,
    pub counters: Counters,
}

impl Out {
    pub fn new(answer: Answer, after: State, counters: Counters) -> Self {
        Self {
            answer,
            after,
            counters,
        }
    }

    /// What the last column calls "state as given".
    pub fn refuse(refusal: Refusal, given: State, counters: Counters) -> Self {
        Self::new(Answer::Refused(refusal), given, counters)
    }
}

impl Rules {
    /// The outcome of a call on a state. Plan is on no state: it leaves this one as it is, and its
    /// list is `Rules::plan`'s.
    pub fn rule(self, s: State, c: Counters, call: &Call) -> Out {
        match call {
            Call::AddInitial(message) => self.add_initial(s, c, *message),
            Call::Begin { horizon, budget } => self.begin(s, c, *horizon, *budget),
            Call::Step => self.step(s, c),
            Call::HandBack { mask, emissions } => self.hand_back(s, c, *mask, emissions),
            Call::ReadGvt => self.read_gvt(s, c),
            Call::ReadCounters => self.read_counters(s, c),
            Call::ReadPending => self.read_pending(s, c),
            Call::ReadEarliest => self.read_earliest(s, c),
            Call::Plan {
                n,
                lookahead,
                lent,
                entities,
            } => Out::new(self.plan(*n, *lookahead, entities, *lent).answer, s, c),
        }
    }
}
