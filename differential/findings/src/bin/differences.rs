//! Runs the smallest inputs of docs/DIFFERENCES.md on the original and checks what it says of them.
use kairo_ecs_pdes::{
    ConservativeProcess, ConservativeRuntime, LpId, PartitionPlan, RemoteEvent, RuntimeError,
};
use kairo_ecs_types::{EntityId, SimDuration, SimTime};
use std::collections::BTreeMap;

/// A process that emits nothing, or panics.
struct Handler {
    panics: bool,
}

impl ConservativeProcess for Handler {
    fn on_event(&mut self, _: &RemoteEvent) -> Vec<RemoteEvent> {
        assert!(!self.panics);
        Vec::new()
    }
}

/// A runtime with lookahead 1 and these rows, whose handlers panic or do not.
fn runtime(rows: &[&[u32]], panics: bool) -> ConservativeRuntime<Handler> {
    let count = rows.len() as u32;
    let plan =
        PartitionPlan::from_entities(count, SimDuration::from_ticks(1), vec![EntityId::new(0, 0)])
            .unwrap();
    let topology = rows
        .iter()
        .enumerate()
        .map(|(p, row)| (LpId(p as u32), row.iter().map(|&d| LpId(d)).collect()))
        .collect();
    let processes: BTreeMap<_, _> = (0..count).map(|p| (LpId(p), Handler { panics })).collect();
    ConservativeRuntime::new(plan, topology, processes).unwrap()
}

/// An event from process 0 to itself.
fn to_itself(tick: u128) -> RemoteEvent {
    RemoteEvent {
        source_lp: LpId(0),
        dest_lp: LpId(0),
        tick: SimTime::from_ticks(tick),
        event_payload: vec![],
    }
}

/// D1: an event was handled and no null message was sent.
fn no_null_message_after_an_event() {
    let mut runtime = runtime(&[&[1], &[]], false);
    for _ in 0..2 {
        runtime.schedule_initial(to_itself(1)).unwrap();
    }
    let answer = runtime.run_until_with_budget(SimTime::from_ticks(1), 1);
    assert_eq!(answer, Err(RuntimeError::EventBudgetExceeded { budget: 1 }));
    assert_eq!(runtime.report().processed_events, 1);
    assert_eq!(runtime.report().null_messages, 0);
}

/// D3: a panic poisons, and is told by the process.
fn panic_in_a_handler() {
    let mut runtime = runtime(&[&[]], true);
    runtime.schedule_initial(to_itself(0)).unwrap();
    std::panic::set_hook(Box::new(|_| {}));
    assert_eq!(
        runtime.run_until_with_budget(SimTime::ZERO, 1),
        Err(RuntimeError::HandlerPanicked(LpId(0)))
    );
    assert_eq!(
        runtime.run_until_with_budget(SimTime::ZERO, 1),
        Err(RuntimeError::Poisoned)
    );
    let _ = std::panic::take_hook();
}

/// D4: 65 processes are built.
fn no_limit_of_processes() {
    let rows = vec![&[][..]; 65];
    assert_eq!(runtime(&rows, false).processes().len(), 65);
}

/// D4: 513 edges are built.
fn no_limit_of_edges() {
    let mut rows = vec![vec![]; 24];
    let pairs = (0..24).flat_map(|p| (0..24).map(move |d| (p, d)));
    for (p, d) in pairs.filter(|(p, d)| p != d).take(513) {
        rows[p].push(d as u32);
    }
    let rows: Vec<&[u32]> = rows.iter().map(Vec::as_slice).collect();
    runtime(&rows, false);
}

/// D4: the 513th initial event is taken, and one with a payload of 17 bytes.
fn no_limit_of_events() {
    let mut runtime = runtime(&[&[]], false);
    for _ in 0..513 {
        runtime.schedule_initial(to_itself(0)).unwrap();
    }
    let mut long = to_itself(0);
    long.event_payload = vec![0; 17];
    runtime.schedule_initial(long).unwrap();
    assert_eq!(runtime.pending_events(), 514);
}

/// D4: 1,025 entities are shared out.
fn no_limit_of_entities() {
    let entities = (0..1025).map(|index| EntityId::new(index, 0)).collect();
    let plan = PartitionPlan::from_entities(1, SimDuration::from_ticks(1), entities).unwrap();
    assert_eq!(plan.segments()[0].entities.len(), 1025);
}

/// D5: missing and unexpected processes are told by their ids.
fn ids_of_a_mismatch() {
    let lookahead = SimDuration::from_ticks(1);
    let plan = PartitionPlan::from_entities(1, lookahead, vec![EntityId::new(0, 0)]).unwrap();
    let processes = BTreeMap::from([(LpId(7), Handler { panics: false })]);
    let refused = ConservativeRuntime::new(plan, BTreeMap::new(), processes).err();
    let expected = RuntimeError::ProcessSetMismatch {
        missing: vec![LpId(0)],
        unexpected: vec![LpId(7)],
    };
    assert_eq!(refused, Some(expected));
}

/// D6: the history of GVT is 0, and each higher value.
fn history_of_gvt() {
    let mut runtime = runtime(&[&[1], &[0]], false);
    runtime
        .run_until_with_budget(SimTime::from_ticks(1), 1)
        .unwrap();
    assert_eq!(
        runtime.report().gvt_history,
        [SimTime::ZERO, SimTime::from_ticks(1)]
    );
}

/// D6: a plan has segments, and tells the owner of an entity.
fn segments_and_owners() {
    let entity = EntityId::new(0, 0);
    let plan = PartitionPlan::from_entities(1, SimDuration::from_ticks(1), vec![entity]).unwrap();
    assert_eq!(plan.segments()[0].entities, [entity]);
    assert_eq!(plan.owner_of(entity), Some(LpId(0)));
}

fn main() {
    no_null_message_after_an_event();
    panic_in_a_handler();
    no_limit_of_processes();
    no_limit_of_edges();
    no_limit_of_events();
    no_limit_of_entities();
    ids_of_a_mismatch();
    history_of_gvt();
    segments_and_owners();
    println!("differential: the Rust does what docs/DIFFERENCES.md says of it, 10 inputs");
}
