//! Refresh: document 01, "Step and hand back", the paragraph that begins with this word
//! (Refresh.antt).
use crate::pending::first_tick;
use crate::state::{Event, State};
use crate::variant::{Rules, Variant};

/// "H = accepted horizon + 1". A stored horizon is below the largest tick, or the state is foreign.
pub fn exclusive(horizon: u128) -> u128 {
    horizon.saturating_add(1)
}

impl Rules {
    /// "h(p) rises to min(safe(p), first pending tick if any)"
    fn refresh_to(self, inbound: &[u128], h: u128, q: &[Event], p: u32) -> u128 {
        let safe = self.safe(inbound, h, p);
        safe.min(first_tick(q, p, safe))
    }

    /// "GVT rises to the least of the horizon, all pending ticks and all h - 1 (0 for h = 0)."
    fn gvt_of(self, gvt: u128, horizon: u128, q: &[Event], horizons: &[u128]) -> u128 {
        let less = |h: &u128| match self.variant() {
            Variant::OneLessWraps => h.wrapping_sub(1),
            Variant::GvtIsHorizon => *h,
            _ => h.saturating_sub(1),
        };
        let ticks = q.iter().map(|e| e.tick);
        let least = ticks
            .chain(horizons.iter().map(less))
            .fold(horizon, u128::min);
        if self.wrong(Variant::GvtFalls) {
            least
        } else {
            gvt.max(least)
        }
    }

    /// Safe is read from the record `old`: "in a step, safe is still the one from before the advance".
    pub fn refreshed(self, mut s: State, horizon: u128, old: &[u128]) -> State {
        let from = if self.wrong(Variant::RefreshReadsNewRecord) {
            &s.inbound[..]
        } else {
            old
        };
        for (local, p) in s.horizons.iter_mut().zip(0..) {
            if !self.wrong(Variant::RefreshRaisesNoHorizon) {
                *local = (*local).max(self.refresh_to(from, exclusive(horizon), &s.pending, p));
            }
        }
        s.gvt = self.gvt_of(s.gvt, horizon, &s.pending, &s.horizons);
        s
    }
}
