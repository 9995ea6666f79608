//! Between the original's types and the model's.
use kairo_ecs_pdes::{LpId, RemoteEvent, RuntimeError};
use kairo_ecs_types::SimTime;
use model::{Message, Payload, Refusal};

pub fn tick(ticks: u128) -> SimTime {
    SimTime::from_ticks(ticks)
}

pub fn event(m: &Message) -> RemoteEvent {
    RemoteEvent {
        source_lp: LpId(m.source),
        dest_lp: LpId(m.destination),
        tick: tick(m.tick),
        event_payload: m.payload.bytes().to_vec(),
    }
}

pub fn message(e: &RemoteEvent) -> Message {
    Message {
        source: e.source_lp.0,
        destination: e.dest_lp.0,
        tick: e.tick.ticks(),
        payload: Payload::of(&e.event_payload),
    }
}

/// 4: "64-bit mask of missing ids, how many unexpected". Missing ids are below 64.
fn mismatch(missing: &[LpId], unexpected: &[LpId]) -> Refusal {
    let mask = missing.iter().fold(0, |mask, id| mask | 1u64 << id.0);
    Refusal::ProcessSetMismatch(mask, unexpected.len() as u64)
}

/// Document 01's refusal for an error of the original. `SpawnFailed` has none: then this machine
/// has no thread to give, and nothing can be compared.
pub fn refusal(error: RuntimeError) -> Refusal {
    use RuntimeError as E;
    match error {
        E::InvalidLookahead => Refusal::InvalidLookahead,
        E::ProcessSetMismatch {
            missing,
            unexpected,
        } => mismatch(&missing, &unexpected),
        E::MissingTopologyEntry(p) => Refusal::MissingTopologyEntry(p.0),
        E::UnknownTopologySource(p) => Refusal::UnknownTopologySource(p.0),
        E::UnknownTopologyDestination {
            source,
            destination,
        } => Refusal::UnknownTopologyDestination(source.0, destination.0),
        E::SelfLoop(p) => Refusal::SelfLoop(p.0),
        E::DuplicateNeighbor {
            source,
            destination,
        } => Refusal::DuplicateNeighbor(source.0, destination.0),
        E::UnknownInitialSource(p) => Refusal::UnknownInitialSource(p.0),
        E::UnknownInitialDestination(p) => Refusal::UnknownInitialDestination(p.0),
        E::InitialRouteMissing {
            source,
            destination,
        } => Refusal::InitialRouteMissing(source.0, destination.0),
        E::InitialEventsAlreadyClosed => Refusal::InitialEventsAlreadyClosed,
        other => run_refusal(other),
    }
}

/// The errors of a run.
fn run_refusal(error: RuntimeError) -> Refusal {
    use RuntimeError as E;
    match error {
        E::Straggler {
            lp_id,
            event_tick,
            local_time,
        } => Refusal::Straggler(lp_id.0, event_tick.ticks(), local_time.ticks()),
        E::OutboundSourceMismatch {
            emitting_lp,
            declared_source,
        } => Refusal::OutboundSourceMismatch(emitting_lp.0, declared_source.0),
        E::UnknownOutboundDestination(p) => Refusal::UnknownOutboundDestination(p.0),
        E::OutboundRouteMissing {
            source,
            destination,
        } => Refusal::OutboundRouteMissing(source.0, destination.0),
        E::LookaheadOverflow {
            lp_id,
            event_tick,
            lookahead,
        } => Refusal::LookaheadOverflow(lp_id.0, event_tick.ticks(), lookahead.ticks()),
        E::OutboundLookaheadViolation {
            lp_id,
            event_tick,
            outbound_tick,
            minimum_tick,
        } => Refusal::OutboundLookaheadViolation(
            lp_id.0,
            event_tick.ticks(),
            outbound_tick.ticks(),
            minimum_tick.ticks(),
        ),
        E::HorizonOverflow(horizon) => Refusal::HorizonOverflow(horizon.ticks()),
        E::EventSequenceOverflow => Refusal::EventSequenceOverflow,
        E::EventBudgetExceeded { budget } => Refusal::EventBudgetExceeded(budget as u64),
        E::HorizonRegression {
            previous,
            requested,
        } => Refusal::HorizonRegression(previous.ticks(), requested.ticks()),
        E::HandlerPanicked(p) => Refusal::HandlerFailed(p.0),
        E::Poisoned => Refusal::Poisoned,
        other => panic!("document 01 has no refusal for {other:?}"),
    }
}
