//! Build: document 01, "Calls and what they turn away", rows 1 to 10, and A.4's 40 (Build.antt).
use crate::answers::{Answer, Refusal};
use crate::state::{Counters, Edge, State, MOST_EDGES, MOST_PROCESSES};
use crate::variant::{Rules, Variant};

/// What build takes. Rows come as two lists, their sources and their counts; the lookaheads of the edges
/// stand beside the destinations, two words each, the upper half first (A.4).
#[derive(Clone, Debug, Eq, PartialEq)]
pub struct Setup {
    pub n: u64,
    pub lookahead: u128,
    pub ids: Vec<u32>,
    pub sources: Vec<u32>,
    pub counts: Vec<u64>,
    pub destinations: Vec<u32>,
    pub lookaheads: Vec<u64>,
}

/// A destination of a row, and the lookahead of the edge to it.
#[derive(Clone, Copy, Debug, Eq, PartialEq)]
struct Target {
    destination: u32,
    lookahead: u128,
}

/// Lookaheads as build takes them.
pub fn lookahead_words(lookaheads: impl IntoIterator<Item = u128>) -> Vec<u64> {
    let words = |lookahead: u128| [(lookahead >> 64) as u64, lookahead as u64];
    lookaheads.into_iter().flat_map(words).collect()
}

/// What build gives; "nothing made" where it refuses.
#[derive(Clone, Debug, Eq, PartialEq)]
pub struct Made {
    pub answer: Answer,
    pub made: Option<State>,
    pub counters: Counters,
}

fn rising(ids: &[u32]) -> bool {
    ids.windows(2).all(|pair| pair[0] < pair[1])
}

impl Setup {
    /// 3: "process ids not strictly rising".
    pub fn unordered(&self) -> bool {
        !rising(&self.ids)
    }

    /// This with the plan's lookahead on every edge.
    pub fn made_uniform(mut self) -> Self {
        let each = self.destinations.iter().map(|_| self.lookahead);
        self.lookaheads = lookahead_words(each);
        self
    }

    /// Whether every edge carries the plan's lookahead: A.4's "Equality with the Rust covers runtimes" of
    /// these.
    pub fn is_uniform(&self) -> bool {
        let mut each = self.edge_lookaheads().into_iter();
        self.lookaheads.len() == 2 * self.destinations.len() && each.all(|l| l == self.lookahead)
    }

    /// The lookahead beside each destination; 0 where words are missing, which 5 refuses.
    pub fn edge_lookaheads(&self) -> Vec<u128> {
        let word = |at: usize| u128::from(self.lookaheads.get(at).copied().unwrap_or(0));
        let places = 0..self.destinations.len();
        places
            .map(|at| word(2 * at) << 64 | word(2 * at + 1))
            .collect()
    }

    /// A.4: "the least edge lookahead, or the plan's if there is no edge".
    pub fn least_lookahead(&self) -> u128 {
        let least = self.edge_lookaheads().into_iter().min();
        least.unwrap_or(self.lookahead)
    }

    /// 5: "row sources not strictly rising, rows not using up the list exactly, over 512 edges". Two
    /// lists of unequal length are no rows, nor are destinations with more lookaheads or fewer. The sum is
    /// taken in a wider type.
    pub fn malformed_rows(&self) -> bool {
        let sum: u128 = self.counts.iter().map(|&count| u128::from(count)).sum();
        self.sources.len() != self.counts.len()
            || !rising(&self.sources)
            || sum != self.destinations.len() as u128
            || self.destinations.len() > MOST_EDGES
            || self.lookaheads.len() != 2 * self.destinations.len()
    }

    /// Each row's source and destinations. Rows that ask for more than the list has left get what
    /// is left; such rows are malformed.
    pub fn rows(&self) -> Vec<(u32, &[u32])> {
        let mut left = &self.destinations[..];
        let mut rows = Vec::new();
        for (&source, &count) in self.sources.iter().zip(&self.counts) {
            let count = usize::try_from(count).unwrap_or(usize::MAX);
            let (row, rest) = left.split_at(count.min(left.len()));
            rows.push((source, row));
            left = rest;
        }
        rows
    }

    /// Each row's source, and its destinations with the lookaheads of the edges to them.
    fn target_rows(&self) -> Vec<(u32, Vec<Target>)> {
        let mut lookaheads = self.edge_lookaheads().into_iter();
        let mut target = |&destination: &u32| Target {
            destination,
            lookahead: lookaheads.next().unwrap_or(0),
        };
        let rows = self.rows().into_iter();
        rows.map(|(source, row)| (source, row.iter().map(&mut target).collect()))
            .collect()
    }

    /// The processes' ids as build expects them. At most 64 are refused or accepted by their ids.
    fn expected(&self) -> std::ops::Range<u32> {
        0..self.n.min(MOST_PROCESSES) as u32
    }
}

impl Rules {
    /// 4: "64-bit mask of missing ids": 2^p for each p below n that is not among the ids.
    fn missing(self, a: &Setup) -> u64 {
        let missing = a.expected().filter(|p| !a.ids.contains(p));
        let mask = missing.fold(0, |mask: u64, p| mask | 1 << p);
        if self.wrong(Variant::MissingMaskOff) {
            mask << 1
        } else {
            mask
        }
    }

    /// 4: "how many unexpected": the ids that are not below n.
    fn unexpected(self, a: &Setup) -> u64 {
        let unexpected = a.ids.iter().filter(|&&id| u64::from(id) >= a.n);
        unexpected.count() as u64
    }

    /// 6: the least of the processes that have no row.
    fn least_rowless(self, a: &Setup) -> Option<u32> {
        let mut rowless = a.expected().filter(|p| !a.sources.contains(p));
        if self.wrong(Variant::GreatestWithoutRow) {
            rowless.next_back()
        } else {
            rowless.next()
        }
    }

    /// 40: "an edge lookahead of 0".
    fn no_lookahead(self, lookahead: u128) -> bool {
        match self.variant() {
            Variant::EdgeLookaheadByLowerHalf => lookahead as u64 == 0,
            _ => lookahead == 0,
        }
    }

    /// "for each destination in turn 8, 9, 10", and "40 .., after 10 for that edge": those of an edge of the
    /// source p. `seen` are the destinations of its row so far.
    fn edge_rows(self, n: u64, p: u32, t: Target, seen: &[u32]) -> Option<Refusal> {
        let d = t.destination;
        let unknown = u64::from(d) >= n;
        let twice = seen.contains(&d);
        let none = self.no_lookahead(t.lookahead);
        let early = match self.variant() {
            Variant::EdgeLookaheadBeforeUnknown => none,
            Variant::EdgeLookaheadBeforeTwice => none && !unknown && d != p,
            _ => false,
        };
        if early {
            return Some(Refusal::InvalidEdgeLookahead);
        }
        if unknown {
            return Some(Refusal::UnknownTopologyDestination(p, d));
        }
        if d == p {
            return Some(Refusal::SelfLoop(p));
        }
        if twice {
            return Some(Refusal::DuplicateNeighbor(p, d));
        }
        let judged = none && !self.wrong(Variant::EdgeLookaheadLast);
        judged.then_some(Refusal::InvalidEdgeLookahead)
    }

    /// Those of the edges of the source p in turn.
    fn row_rows(self, n: u64, p: u32, row: &[Target], seen: &mut Vec<u32>) -> Option<Refusal> {
        let to_itself = row.iter().any(|t| t.destination == p);
        if self.wrong(Variant::SelfLoopBeforeUnknown) && to_itself {
            return Some(Refusal::SelfLoop(p));
        }
        row.iter().find_map(|t| {
            let refused = self.edge_rows(n, p, *t, seen);
            seen.push(t.destination);
            refused
        })
    }

    /// "then each row: 7, and for each destination in turn".
    fn topology_rows(self, a: &Setup) -> Option<Refusal> {
        let mut seen = Vec::new();
        for (source, row) in a.target_rows() {
            if u64::from(source) >= a.n {
                return Some(Refusal::UnknownTopologySource(source));
            }
            if !self.wrong(Variant::DuplicateAcrossRows) {
                seen.clear();
            }
            let refused = self.row_rows(a.n, source, &row, &mut seen);
            if refused.is_some() {
                return refused;
            }
        }
        let none = a.edge_lookaheads().contains(&0);
        let late = none && self.wrong(Variant::EdgeLookaheadLast);
        late.then_some(Refusal::InvalidEdgeLookahead)
    }

    /// 5.
    fn malformed(self, a: &Setup) -> bool {
        if self.wrong(Variant::LookaheadsTooMany) {
            let mut shorter = a.clone();
            shorter.lookaheads.truncate(2 * a.destinations.len());
            return shorter.malformed_rows();
        }
        a.malformed_rows()
    }

    /// "Build checks 1 to 6, then each row".
    fn build_rows(self, a: &Setup) -> Option<Refusal> {
        if a.n == 0 || a.n > MOST_PROCESSES {
            return Some(Refusal::InvalidPartitionCount(a.n));
        }
        if a.lookahead == 0 {
            return Some(Refusal::InvalidLookahead);
        }
        if a.unordered() {
            return Some(Refusal::UnorderedProcesses);
        }
        let (missing, unexpected) = (self.missing(a), self.unexpected(a));
        if missing > 0 || unexpected > 0 {
            return Some(Refusal::ProcessSetMismatch(missing, unexpected));
        }
        if self.malformed(a) {
            return Some(Refusal::MalformedTopology);
        }
        if let Some(p) = self.least_rowless(a) {
            return Some(Refusal::MissingTopologyEntry(p));
        }
        self.topology_rows(a)
    }

    /// "Each edge has a bound, at first L", its own (A.4).
    fn edges_of(self, a: &Setup) -> Vec<Edge> {
        let edge = |source: u32, t: Target| Edge {
            source,
            destination: t.destination,
            lookahead: t.lookahead,
            bound: match self.variant() {
                Variant::FirstBoundZero => 0,
                Variant::FirstBoundByPlan => a.lookahead,
                _ => t.lookahead,
            },
        };
        let rows = a.target_rows().into_iter();
        rows.flat_map(|(source, row)| row.into_iter().map(move |t| edge(source, t)))
            .collect()
    }

    /// "Once built, nothing is pending, initial events are open, no horizon is stored, no run is
    /// open, and GVT, next sequence and every counter are 0". A.2's record is that of its edges.
    fn built(self, a: &Setup) -> State {
        let edges = self.edges_of(a);
        State {
            n: a.n,
            lookahead: a.lookahead,
            inbound: self.inbound_of(a.n, &edges),
            edges,
            pending: vec![],
            next: 0,
            horizons: a.expected().map(|_| 0).collect(),
            gvt: 0,
            stored: None,
            used: 0,
            batch: vec![],
            initial: true,
            running: false,
            poisoned: false,
        }
    }

    pub fn build(self, a: &Setup, lent: Counters) -> Made {
        match self.build_rows(a) {
            Some(refusal) => Made {
                answer: Answer::Refused(refusal),
                made: None,
                counters: lent,
            },
            None => Made {
                answer: Answer::Accepted,
                made: Some(self.built(a)),
                counters: Counters::default(),
            },
        }
    }
}
