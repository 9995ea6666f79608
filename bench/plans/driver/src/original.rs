//! The original, its handlers run in place, as the host of a plan file. What only document 01 refuses
//! (5, 17, 18, 26) is not among the plans that are timed, and not looked for.
use crate::reader::{read, Plan};
use kairo_ecs_pdes_in_place::{
    ConservativeProcess, ConservativeRuntime, LpId, PartitionPlan, RemoteEvent, RuntimeError,
};
use kairo_ecs_types::{EntityId, SimDuration, SimTime};
use std::collections::BTreeMap;
use std::io::Write;
use std::sync::{Arc, Mutex};

/// The events handled so far, in the order of their handlers.
type Log = Arc<Mutex<Vec<(LpId, SimTime, LpId)>>>;

/// Answers with its replies in turn.
struct FromFile {
    replies: std::vec::IntoIter<Vec<RemoteEvent>>,
    log: Log,
}

impl ConservativeProcess for FromFile {
    fn on_event(&mut self, event: &RemoteEvent) -> Vec<RemoteEvent> {
        let mut log = self.log.lock().expect("the log is not whole");
        log.push((event.dest_lp, event.tick, event.source_lp));
        self.replies.next().unwrap_or_default()
    }
}

/// Document 01's number, as far as the plans that are timed need one.
fn number(error: &RuntimeError) -> u64 {
    match error {
        RuntimeError::DuplicateNeighbor { .. } => 10,
        RuntimeError::EventBudgetExceeded { .. } => 24,
        other => panic!("no plan that is timed has {other:?}"),
    }
}

/// The runtime, or the number of build's refusal.
fn build(plan: &mut Plan, log: &Log) -> Result<ConservativeRuntime<FromFile>, u64> {
    let lookahead = SimDuration::from_ticks(plan.lookahead);
    let entities = vec![EntityId::new(0, 0)];
    let partition = PartitionPlan::from_entities(plan.n, lookahead, entities).map_err(|_| 1u64)?;
    let ids = || (0..plan.n).map(LpId);
    let mut topology: BTreeMap<LpId, Vec<LpId>> = ids().map(|p| (p, vec![])).collect();
    for &(source, destination, lookahead) in &plan.edges {
        assert_eq!(lookahead, plan.lookahead, "the original has one lookahead");
        topology.entry(source).or_default().push(destination);
    }
    let mut replies: BTreeMap<LpId, Vec<Vec<RemoteEvent>>> = ids().map(|p| (p, vec![])).collect();
    for (process, emissions) in plan.replies.drain(..) {
        if let Some(mine) = replies.get_mut(&process) {
            mine.push(emissions);
        }
    }
    let process = |(p, replies): (LpId, Vec<Vec<RemoteEvent>>)| {
        let (replies, log) = (replies.into_iter(), log.clone());
        (p, FromFile { replies, log })
    };
    let processes = replies.into_iter().map(process).collect();
    ConservativeRuntime::new(partition, topology, processes).map_err(|error| number(&error))
}

fn run(runtime: &mut ConservativeRuntime<FromFile>, plan: Plan) -> Result<(), RuntimeError> {
    for event in plan.initial {
        runtime.schedule_initial(event)?;
    }
    let horizon = SimTime::from_ticks(plan.horizon);
    runtime.run_until_with_budget(horizon, plan.budget as usize)?;
    Ok(())
}

/// The end line and, before it, a line for each event that counts as handled.
fn list(runtime: &ConservativeRuntime<FromFile>, log: &Log, end: u64, listing: &mut Vec<u8>) {
    let report = runtime.report();
    let log = log.lock().expect("the log is not whole");
    for (process, tick, source) in log.iter().take(report.processed_events as usize) {
        let written = writeln!(listing, "{} {:032x} {}", process.0, tick.ticks(), source.0);
        written.expect("a listing is not written");
    }
    let (gvt, rounds, nulls) = (runtime.gvt().ticks(), report.rounds, report.null_messages);
    let written = writeln!(listing, "end {end} {gvt:032x} {rounds} {nulls}");
    written.expect("a listing is not written");
}

/// The whole of it: from the bytes of a file to its listing.
pub fn rehearse(bytes: &[u8], listing: &mut Vec<u8>) -> u64 {
    listing.clear();
    let mut plan = match read(bytes) {
        Ok(plan) => plan,
        Err(number) => return number,
    };
    let log = Log::default();
    let mut runtime = match build(&mut plan, &log) {
        Ok(runtime) => runtime,
        Err(end) => {
            let written = writeln!(listing, "end {end} {:032x} 0 0", 0);
            written.expect("a listing is not written");
            return 0;
        }
    };
    // The least edge lookahead, since all are the plan's.
    if plan.horizon / plan.lookahead > 65_536 {
        return 39;
    }
    let end = run(&mut runtime, plan).err();
    list(&runtime, &log, end.as_ref().map_or(0, number), listing);
    0
}
