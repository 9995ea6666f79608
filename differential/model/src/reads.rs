//! The four reads: document 01, "Reads and plan" (Reads.antt). They check 11 and nothing else.
use crate::answers::{Answer, Reading, Refusal};
use crate::calls::Out;
use crate::state::{Counters, State, TOP};
use crate::variant::{Rules, Variant};

impl Rules {
    fn read(self, s: State, c: Counters, reading: Reading) -> Out {
        if self.foreign(&s) {
            return Out::refuse(Refusal::ForeignState, s, c);
        }
        if self.wrong(Variant::ReadsRefusePoisoned) && s.poisoned {
            return Out::refuse(Refusal::Poisoned, s, c);
        }
        Out::new(Answer::Read(reading), s, c)
    }

    pub fn read_gvt(self, s: State, c: Counters) -> Out {
        let reading = Reading::Gvt(s.gvt);
        self.read(s, c, reading)
    }

    /// The report's six counters, and `used`.
    pub fn read_counters(self, s: State, c: Counters) -> Out {
        let reading = Reading::Counted(c, s.used);
        self.read(s, c, reading)
    }

    pub fn read_pending(self, s: State, c: Counters) -> Out {
        let reading = Reading::Pending(s.pending.len() as u64);
        self.read(s, c, reading)
    }

    /// "earliest pending tick (added; the largest tick if none is pending)"
    pub fn read_earliest(self, s: State, c: Counters) -> Out {
        let reading = Reading::Earliest(s.pending.iter().map(|e| e.tick).fold(TOP, u128::min));
        self.read(s, c, reading)
    }
}
