//! What a call answers: one case for each answer and each refusal, with the number and the values
//! that document 01's table gives to it, and A.4's 40 (Answers.antt).
use crate::state::{Counters, Event};

#[derive(Clone, Copy, Debug, Default, Eq, PartialEq)]
pub struct Entity {
    pub index: u64,
    pub generation: u64,
}

/// A value of an answer: ticks, lookaheads and horizons are printed in another way than counts and ids.
#[derive(Clone, Copy, Debug, Eq, PartialEq)]
pub enum Value {
    Count(u64),
    Tick(u128),
}

#[derive(Clone, Copy, Debug, Eq, PartialEq)]
pub enum Refusal {
    InvalidPartitionCount(u64),
    InvalidLookahead,
    UnorderedProcesses,
    ProcessSetMismatch(u64, u64),
    MalformedTopology,
    MissingTopologyEntry(u32),
    UnknownTopologySource(u32),
    UnknownTopologyDestination(u32, u32),
    SelfLoop(u32),
    DuplicateNeighbor(u32, u32),
    InvalidEdgeLookahead,
    ForeignState,
    Poisoned,
    InitialEventsAlreadyClosed,
    UnknownInitialSource(u32),
    UnknownInitialDestination(u32),
    InitialRouteMissing(u32, u32),
    PayloadTooLong(u64),
    QueueFull,
    EventSequenceOverflow,
    RunOpen,
    HorizonRegression(u128, u128),
    HorizonOverflow(u128),
    NothingToStep,
    EventBudgetExceeded(u64),
    NoBatch,
    MalformedReply,
    HandlerFailed(u32),
    OutboundSourceMismatch(u32, u32),
    UnknownOutboundDestination(u32),
    OutboundRouteMissing(u32, u32),
    LookaheadOverflow(u32, u128, u128),
    OutboundLookaheadViolation(u32, u128, u128, u128),
    Straggler(u32, u128, u128),
    EmptyPartitionEntities,
    DuplicatePartitionEntity(Entity),
    TooManyEntities,
}

fn id(id: u32) -> Value {
    Value::Count(u64::from(id))
}

impl Refusal {
    /// Column "No."
    pub fn number(&self) -> usize {
        use Refusal::*;
        match self {
            InvalidPartitionCount(..) => 1,
            InvalidLookahead => 2,
            UnorderedProcesses => 3,
            ProcessSetMismatch(..) => 4,
            MalformedTopology => 5,
            MissingTopologyEntry(..) => 6,
            UnknownTopologySource(..) => 7,
            UnknownTopologyDestination(..) => 8,
            SelfLoop(..) => 9,
            DuplicateNeighbor(..) => 10,
            InvalidEdgeLookahead => 40,
            ForeignState => 11,
            Poisoned => 12,
            InitialEventsAlreadyClosed => 13,
            UnknownInitialSource(..) => 14,
            UnknownInitialDestination(..) => 15,
            InitialRouteMissing(..) => 16,
            PayloadTooLong(..) => 17,
            QueueFull => 18,
            EventSequenceOverflow => 19,
            RunOpen => 20,
            HorizonRegression(..) => 21,
            HorizonOverflow(..) => 22,
            NothingToStep => 23,
            EventBudgetExceeded(..) => 24,
            NoBatch => 25,
            MalformedReply => 26,
            HandlerFailed(..) => 27,
            OutboundSourceMismatch(..) => 28,
            UnknownOutboundDestination(..) => 29,
            OutboundRouteMissing(..) => 30,
            LookaheadOverflow(..) => 31,
            OutboundLookaheadViolation(..) => 32,
            Straggler(..) => 33,
            EmptyPartitionEntities => 34,
            DuplicatePartitionEntity(..) => 35,
            TooManyEntities => 36,
        }
    }

    /// Column "Returned".
    pub fn values(&self) -> Vec<Value> {
        use Refusal::*;
        use Value::{Count, Tick};
        match *self {
            InvalidPartitionCount(count) => vec![Count(count)],
            ProcessSetMismatch(mask, count) => vec![Count(mask), Count(count)],
            MissingTopologyEntry(p) | UnknownTopologySource(p) | SelfLoop(p) => vec![id(p)],
            UnknownTopologyDestination(a, b) | DuplicateNeighbor(a, b) => vec![id(a), id(b)],
            UnknownInitialSource(p) | UnknownInitialDestination(p) => vec![id(p)],
            InitialRouteMissing(a, b) => vec![id(a), id(b)],
            PayloadTooLong(length) => vec![Count(length)],
            HorizonRegression(previous, requested) => vec![Tick(previous), Tick(requested)],
            HorizonOverflow(horizon) => vec![Tick(horizon)],
            EventBudgetExceeded(budget) => vec![Count(budget)],
            HandlerFailed(p) | UnknownOutboundDestination(p) => vec![id(p)],
            OutboundSourceMismatch(a, b) | OutboundRouteMissing(a, b) => vec![id(a), id(b)],
            LookaheadOverflow(p, tick, lookahead) => vec![id(p), Tick(tick), Tick(lookahead)],
            OutboundLookaheadViolation(p, at, tick, minimum) => {
                vec![id(p), Tick(at), Tick(tick), Tick(minimum)]
            }
            Straggler(p, tick, horizon) => vec![id(p), Tick(tick), Tick(horizon)],
            DuplicatePartitionEntity(e) => vec![Count(e.index), Count(e.generation)],
            InvalidLookahead
            | UnorderedProcesses
            | MalformedTopology
            | InvalidEdgeLookahead
            | ForeignState
            | Poisoned
            | InitialEventsAlreadyClosed
            | QueueFull
            | EventSequenceOverflow
            | RunOpen
            | NothingToStep
            | NoBatch
            | MalformedReply
            | EmptyPartitionEntities
            | TooManyEntities => vec![],
        }
    }
}

/// What the four reads answer.
#[derive(Clone, Copy, Debug, Eq, PartialEq)]
pub enum Reading {
    Gvt(u128),
    Counted(Counters, u64),
    Pending(u64),
    Earliest(u128),
}

/// Every answer. GVT is the last number of a batch, Advanced, Finished and Committed.
#[derive(Clone, Debug, Eq, PartialEq)]
pub enum Answer {
    Accepted,
    Batch(Vec<Event>, u128),
    Advanced(u128),
    Finished(u128),
    Committed(u128),
    Read(Reading),
    Planned(u64),
    Refused(Refusal),
}

impl Answer {
    /// Document 01's number of an answer; 0 where nothing was refused.
    pub fn number(&self) -> usize {
        match self {
            Answer::Refused(refusal) => refusal.number(),
            _ => 0,
        }
    }
}
