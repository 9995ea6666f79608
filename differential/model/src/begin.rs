//! Begin: rows 11, 12, then 20 to 22 (Begin.antt).
use crate::answers::{Answer, Refusal};
use crate::calls::Out;
use crate::state::{Counters, State, Stored, TOP};
use crate::variant::{Rules, Variant};

impl Rules {
    fn begin_rows(self, s: &State, horizon: u128) -> Option<Refusal> {
        let previous = s.stored.map_or(0, |stored| stored.horizon);
        let falls = match self.variant() {
            Variant::EqualHorizonRefused => s.stored.is_some() && horizon <= previous,
            _ => horizon < previous,
        };
        let over = match self.variant() {
            Variant::HorizonOverflowEarly => horizon >= TOP - 1,
            _ => horizon == TOP,
        };
        if self.wrong(Variant::RefusesAll) || self.foreign(s) {
            return Some(Refusal::ForeignState);
        }
        if s.poisoned {
            return Some(Refusal::Poisoned);
        }
        if s.running {
            return Some(Refusal::RunOpen);
        }
        if falls {
            return Some(Refusal::HorizonRegression(previous, horizon));
        }
        over.then_some(Refusal::HorizonOverflow(horizon))
    }

    /// "Begin stores horizon and budget, closes initial events, sets this run's used count to 0 and
    /// opens the run."
    pub fn begin(self, mut s: State, c: Counters, horizon: u128, budget: u64) -> Out {
        if let Some(refusal) = self.begin_rows(&s, horizon) {
            if self.wrong(Variant::RefusedBeginCloses) && !self.foreign(&s) {
                s.initial = false;
            }
            return Out::refuse(refusal, s, c);
        }
        s.stored = Some(Stored { horizon, budget });
        s.initial = false;
        if !self.wrong(Variant::UsedNotReset) {
            s.used = 0;
        }
        s.running = true;
        Out::new(Answer::Accepted, s, c)
    }
}
