//! Where the original and the rules part ways.
use model::{Counters, State};
use std::fmt::{self, Debug, Display};

#[derive(Clone, Copy, Debug, Eq, PartialEq)]
pub enum Comparison {
    WholeRun,
    CallByCall,
    Build,
    Plan,
    Limits,
}

/// Which of the things compared differs.
#[derive(Clone, Copy, Debug, Eq, PartialEq)]
pub enum Kind {
    BuildResult,
    Answer,
    Counters,
    Used,
    Sizes,
    NextSequence,
    Edges,
    Pending,
    Horizons,
    Record,
    Gvt,
    Stored,
    Batch,
    Flags,
    Handled,
    GvtHistory,
    PlanList,
    Owners,
    Ending,
}

#[derive(Clone, Debug)]
pub struct Difference {
    pub comparison: Comparison,
    pub kind: Kind,
    /// Which call, from 1; 0 is the build.
    pub at: usize,
    pub rust: String,
    pub rules: String,
}

impl Display for Comparison {
    fn fmt(&self, f: &mut fmt::Formatter<'_>) -> fmt::Result {
        f.write_str(match self {
            Comparison::WholeRun => "whole run",
            Comparison::CallByCall => "call by call",
            Comparison::Build => "build",
            Comparison::Plan => "plan",
            Comparison::Limits => "what holds of every list from build",
        })
    }
}

impl Display for Kind {
    fn fmt(&self, f: &mut fmt::Formatter<'_>) -> fmt::Result {
        f.write_str(match self {
            Kind::BuildResult => "new's result",
            Kind::Answer => "answer",
            Kind::Counters => "counters",
            Kind::Used => "used",
            Kind::Sizes => "sizes",
            Kind::NextSequence => "next sequence number",
            Kind::Edges => "edges",
            Kind::Pending => "pending",
            Kind::Horizons => "horizons",
            Kind::Record => "least inbound bounds",
            Kind::Gvt => "GVT",
            Kind::Stored => "stored horizon and budget",
            Kind::Batch => "batch",
            Kind::Flags => "flags",
            Kind::Handled => "handled events",
            Kind::GvtHistory => "gvt_history",
            Kind::PlanList => "plan",
            Kind::Owners => "owners",
            Kind::Ending => "the run's end",
        })
    }
}

/// Something seen on both sides. Collects the first difference.
pub struct Check {
    pub comparison: Comparison,
    pub at: usize,
}

impl Check {
    /// None if the two are equal.
    pub fn same<T: PartialEq + Debug>(
        &self,
        kind: Kind,
        rust: &T,
        rules: &T,
    ) -> Option<Difference> {
        if rust == rules {
            return None;
        }
        Some(Difference {
            comparison: self.comparison,
            kind,
            at: self.at,
            rust: format!("{rust:?}"),
            rules: format!("{rules:?}"),
        })
    }

    pub fn counters(&self, rust: &Counters, rules: &Counters) -> Option<Difference> {
        self.same(Kind::Counters, rust, rules)
    }

    /// Everything of the state that document 01 compares after each call, and A.2's record.
    pub fn state(&self, a: &State, b: &State) -> Option<Difference> {
        let sizes = |s: &State| (s.n, s.lookahead);
        let flags = |s: &State| [s.initial, s.running, s.poisoned];
        self.same(Kind::Sizes, &sizes(a), &sizes(b))
            .or_else(|| self.same(Kind::Used, &a.used, &b.used))
            .or_else(|| self.same(Kind::NextSequence, &a.next, &b.next))
            .or_else(|| self.same(Kind::Edges, &a.edges, &b.edges))
            .or_else(|| self.same(Kind::Pending, &a.pending, &b.pending))
            .or_else(|| self.same(Kind::Horizons, &a.horizons, &b.horizons))
            .or_else(|| self.same(Kind::Record, &a.inbound, &b.inbound))
            .or_else(|| self.same(Kind::Gvt, &a.gvt, &b.gvt))
            .or_else(|| self.same(Kind::Stored, &a.stored, &b.stored))
            .or_else(|| self.same(Kind::Batch, &a.batch, &b.batch))
            .or_else(|| self.same(Kind::Flags, &flags(a), &flags(b)))
    }
}
