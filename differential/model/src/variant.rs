//! Programs that are wrong in one place each. The comparison has to notice every one of them.

macro_rules! variants {
    ($($name:ident: $words:literal,)*) => {
        #[derive(Clone, Copy, Debug, Eq, PartialEq)]
        pub enum Variant {
            /// The rules as they are.
            Right,
            $(#[doc = $words] $name,)*
        }

        impl Variant {
            /// The wrong ones.
            pub const ALL: &'static [Variant] = &[$(Variant::$name,)*];

            /// What is wrong, in words.
            pub fn words(self) -> &'static str {
                match self {
                    Variant::Right => "nothing",
                    $(Variant::$name => $words,)*
                }
            }
        }
    };
}

variants! {
    // Document 01, "Slips a plausible port makes".
    EligibleAtSafe: "an event is eligible at tick = safe",
    LookaheadToOneself: "L is demanded of an emission to oneself",
    RefreshBeforeSpent: "refresh comes before 24",
    PartQueued: "part of a round is queued before its refusal",
    HandledBeforeChecks: "handled is raised before the checks",
    SequenceAheadOfSource: "sequence is ahead of source in the order",
    FinishedAtOnce: "Finished at the first step",
    SpentBeforeEligible: "24 before anything is eligible",
    EverythingAtOnce: "everything is handed out in the first round",
    RoundsAlwaysZero: "rounds are always 0",
    RefusesAll: "every call is refused",
    AdvancedAlways: "Advanced is answered always",
    StoresNothing: "accepted events are not stored",
    // Build.
    MissingMaskOff: "4: the mask of missing ids is off by one bit",
    GreatestWithoutRow: "6: the greatest process without a row",
    SelfLoopBeforeUnknown: "9 is checked before 8 in a row",
    DuplicateAcrossRows: "10: a destination of two rows is a duplicate",
    EdgeLookaheadBeforeUnknown: "40 is checked before 8",
    EdgeLookaheadBeforeTwice: "40 is checked before 10",
    EdgeLookaheadLast: "40 is checked behind all rows",
    EdgeLookaheadByLowerHalf: "40 looks at the lower half of a lookahead alone",
    LookaheadsTooMany: "5 does not see that there are lookahead words too many",
    FirstBoundZero: "bounds are 0 at first",
    FirstBoundByPlan: "bounds are the plan's lookahead at first",
    NoInboundIsZero: "the record of a process without inbound edges is 0",
    RecordBySource: "the record has the least bound of the edges from a process",
    // Add initial and begin.
    ClosedByStoredHorizon: "13 goes by the stored horizon",
    ClosedBeforePoisoned: "12 is checked after 13",
    EqualHorizonRefused: "21 at an equal horizon",
    HorizonOverflowEarly: "22 at the horizon 2^128 - 2",
    RefusedBeginCloses: "a refused begin closes initial events",
    UsedNotReset: "begin does not set used to 0",
    // Step.
    TakenByTick: "a batch is taken by tick, not in id order",
    RoomForOneMore: "the budget leaves room for one event more",
    BudgetForgotten: "the batch is cut by the budget without what was used",
    BoundNotCapped: "a bound is not capped at H",
    BoundByPlan: "a bound rises by the plan's lookahead",
    BoundByFirstOfRow: "a bound rises by the lookahead of its source's first edge",
    OverflowWraps: "a bound wraps at overflow",
    BoundFalls: "a bound is set, also to less",
    SafeReadLate: "the record is made, and safe read from it, anew at each edge while bounds are raised",
    RecordNotUpdated: "an advance leaves the record as it was",
    RecordBeforeLastBound: "the record is made before the last bound is written",
    RecordByFirstProcess: "an advance makes the record of the first process alone anew",
    FrontierWithoutHorizon: "a frontier is the record without H",
    NullsByProcess: "null messages are counted by process, not by edge",
    HorizonsAreNoAdvance: "a step that raises local horizons alone is no advance",
    FinishedIsARound: "Finished counts a round",
    // Refresh.
    OneLessWraps: "h - 1 wraps for h = 0",
    GvtIsHorizon: "GVT rises to the least h, not h - 1",
    GvtFalls: "GVT falls",
    RefreshReadsNewRecord: "refresh in a step reads the new record",
    RefreshRaisesNoHorizon: "refresh raises no local horizon",
    // Hand back.
    FailuresFirst: "a later process's failure comes before a bad emission",
    MinimumRefused: "32 at the minimum itself",
    MinimumByPlan: "the minimum tick has the plan's lookahead",
    MinimumByFirstInbound: "the minimum tick has the lookahead of the first edge into the destination",
    MinimumByFirstOfRow: "the minimum tick has the lookahead of the emitter's first edge",
    OverflowTellsPlan: "31 returns the plan's lookahead",
    StragglerAtHorizon: "33 at the local horizon itself",
    NoStraggler: "33 is never answered",
    FullBeforeSequence: "18 is checked before 19 in hand back",
    SequenceOverflowEarly: "19 one number early",
    FreedPlacesCount: "18: the places of the batch do not count as free",
    EmissionsReversed: "emissions are queued in reverse order",
    RemoteCountsAll: "remote counts every emission",
    WorkersOfLastBatch: "the worker count is the last batch",
    CountersWrap: "counters wrap at 2^64",
    SpentKeepsRun: "24 after a hand back leaves the run open",
    PoisonKeepsBatch: "a poisoned runtime keeps its batch",
    PoisonClosesRun: "poisoning closes the run",
    MalformedLosesBatch: "26 loses the batch",
    // Reads, plan and foreign states.
    ReadsRefusePoisoned: "reads are refused when poisoned",
    ForeignWithoutHorizon: "11 does not look at the stored horizon",
    ForeignWithoutRecord: "11 does not look at the record",
    ForeignFirstRecord: "11 looks at the record of the first process alone",
    ForeignLastRecordUnseen: "11 does not look at the record of the last process",
    ForeignLowRecordUnseen: "11 does not see a record that is too low",
    ForeignHighRecordUnseen: "11 does not see a record that is too high",
    ForeignRecordByLowerHalf: "11 looks at the lower halves of the record alone",
    ForeignWithoutEdgeLookahead: "11 does not look at the lookaheads of edges",
    ForeignFirstEdgeLookahead: "11 looks at the first edge's lookahead alone",
    ForeignLastEdgeLookaheadUnseen: "11 does not look at the last edge's lookahead",
    ForeignEdgeLookaheadByLowerHalf: "11 looks at the lower halves of the edges' lookaheads alone",
    PlanByGeneration: "plan sorts by generation first",
    GreatestEntityTwice: "35: the greatest entity that stands twice",
    PlanWritesBeforeTwice: "plan writes the lent list before 35",
    OwnersFromOne: "the first entity belongs to process 1",
}

/// The rules, or a variant of them.
#[derive(Clone, Copy, Debug, Eq, PartialEq)]
pub struct Rules(Variant);

impl Rules {
    pub const RIGHT: Rules = Rules(Variant::Right);

    pub fn of(variant: Variant) -> Self {
        Self(variant)
    }

    pub fn variant(self) -> Variant {
        self.0
    }

    pub fn wrong(self, variant: Variant) -> bool {
        self.0 == variant
    }

    /// "Counters, used among them, stop at 2^64 - 1."
    pub fn raise(self, counter: u64, by: u64) -> u64 {
        if self.wrong(Variant::CountersWrap) {
            counter.wrapping_add(by)
        } else {
            counter.saturating_add(by)
        }
    }
}
