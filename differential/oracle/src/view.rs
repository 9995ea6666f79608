//! The original's state and counters as document 01 compares them.
use crate::build::Runtime;
use crate::convert::tick;
use kairo_ecs_pdes::RemoteEvent;
use kairo_ecs_types::SimTime;
use model::{with_record, Counters, Edge, Event, Odd, Payload, State, Stored, TOP};

/// What the original keeps in local variables of its loop, or not at all.
#[derive(Clone, Debug, Default)]
pub struct Beside {
    pub budget: u64,
    pub used: u64,
    pub batch: Vec<Event>,
    pub running: bool,
    /// What A.2's record is said to have for one process, if that is wrong: then 11 comes before all else.
    pub record: Option<(usize, u128)>,
}

/// The event as it is queued: the place in the queue and the event have to agree.
fn queued(place: (u32, SimTime, u32, u64), event: &RemoteEvent) -> Event {
    let (destination, at, source, sequence) = place;
    assert_eq!(
        (destination, at, source),
        (event.dest_lp.0, event.tick, event.source_lp.0),
        "an event of the original is not where it belongs"
    );
    Event {
        source,
        destination,
        tick: at.ticks(),
        sequence,
        payload: Payload::of(&event.event_payload),
    }
}

pub fn pending(runtime: &Runtime) -> Vec<Event> {
    let pending = runtime.inside_pending().into_iter();
    pending
        .map(|(lp, at, source, sequence, event)| queued((lp.0, at, source.0, sequence), event))
        .collect()
}

/// The original has one lookahead, the plan's, for every edge.
fn edges(runtime: &Runtime) -> Vec<Edge> {
    let edges = runtime.inside_edges().into_iter();
    edges
        .map(|(source, destination, bound)| Edge {
            source: source.0,
            destination: destination.0,
            lookahead: runtime.inside_lookahead().ticks(),
            bound: bound.ticks(),
        })
        .collect()
}

/// A.2's record, which the original does not keep: its own frontiers of its own bounds with the largest
/// tick as H, and so each process's least inbound bound, or the largest tick.
fn inbound(runtime: &Runtime) -> Vec<u128> {
    let safe = runtime.call_compute_safe_frontiers(tick(TOP));
    safe.values().map(|safe| safe.ticks()).collect()
}

pub fn state(runtime: &Runtime, beside: &Beside) -> State {
    let horizons = runtime.inside_horizons();
    let stored = runtime.inside_last_horizon().map(|horizon| Stored {
        horizon: horizon.ticks(),
        budget: beside.budget,
    });
    State {
        n: runtime.processes().len() as u64,
        lookahead: runtime.inside_lookahead().ticks(),
        edges: edges(runtime),
        pending: pending(runtime),
        next: runtime.inside_next_sequence(),
        horizons: horizons.iter().map(|h| h.ticks()).collect(),
        inbound: with_record(inbound(runtime), beside.record),
        gvt: runtime.gvt().ticks(),
        stored,
        used: beside.used,
        batch: beside.batch.clone(),
        initial: runtime.inside_initial_open(),
        running: beside.running,
        poisoned: runtime.inside_poisoned(),
    }
}

pub fn counters(runtime: &Runtime) -> Counters {
    let report = runtime.report();
    Counters {
        handled: report.processed_events,
        emitted: report.emitted_events,
        remote: report.remote_events,
        rounds: report.rounds,
        null_messages: report.null_messages,
        worker_count: report.worker_count as u64,
    }
}

pub fn history(runtime: &Runtime) -> Vec<u128> {
    let history = runtime.report().gvt_history.iter();
    history.map(|gvt| gvt.ticks()).collect()
}

pub fn handled(runtime: &Runtime) -> Vec<Vec<model::Message>> {
    let processes = runtime.processes().values();
    processes.map(|process| process.handled.clone()).collect()
}

/// Sets private fields.
pub fn set(runtime: &mut Runtime, odd: &Odd) {
    let ticks = |given: &[u128]| given.iter().map(|&t| tick(t)).collect::<Vec<_>>();
    runtime.set_bounds(&ticks(&odd.bounds));
    runtime.set_horizons(&ticks(&odd.horizons));
    runtime.set_next_sequence(odd.next);
    runtime.set_gvt(tick(odd.gvt));
    runtime.set_initial_open(odd.initial);
    runtime.set_last_horizon(odd.stored.map(|stored| tick(stored.horizon)));
    let report = runtime.inside_report();
    report.processed_events = odd.counters.handled;
    report.emitted_events = odd.counters.emitted;
    report.remote_events = odd.counters.remote;
    report.rounds = odd.counters.rounds;
    report.null_messages = odd.counters.null_messages;
    report.worker_count = odd.counters.worker_count as usize;
}
