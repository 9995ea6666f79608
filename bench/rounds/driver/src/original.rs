// The original on a scenario. Included twice: `pdes` is the original as it is, and its copy in which
// handlers run in place.
use crate::scenario::{Delay, Ended, Scenario, LOOKAHEAD};
use kairo_ecs_types::{EntityId, SimDuration, SimTime};
use pdes::{ConservativeProcess, ConservativeRuntime, LpId, PartitionPlan, RemoteEvent};
use std::collections::BTreeMap;

/// Sends one event for each that it handles, to its neighbours in turn.
pub struct Relay {
    id: LpId,
    neighbours: Vec<LpId>,
    turn: usize,
    delay: Delay,
}

impl Relay {
    pub fn new(id: usize, row: &[u32]) -> Self {
        Self {
            id: LpId(id as u32),
            neighbours: row.iter().map(|&id| LpId(id)).collect(),
            turn: 0,
            delay: Delay(id as u64 + 1),
        }
    }
}

impl ConservativeProcess for Relay {
    fn on_event(&mut self, event: &RemoteEvent) -> Vec<RemoteEvent> {
        let dest_lp = self.neighbours[self.turn];
        self.turn += 1;
        if self.turn == self.neighbours.len() {
            self.turn = 0;
        }
        let tick = event.tick.ticks() + u128::from(self.delay.next());
        vec![RemoteEvent {
            source_lp: self.id,
            dest_lp,
            tick: SimTime::from_ticks(tick),
            event_payload: vec![],
        }]
    }
}

pub fn built<P: ConservativeProcess>(
    scenario: &Scenario,
    process: impl Fn(Relay) -> P,
) -> ConservativeRuntime<P> {
    let rows = || scenario.rows.iter().enumerate();
    let entities = vec![EntityId::new(0, 0)];
    let lookahead = SimDuration::from_ticks(u128::from(LOOKAHEAD));
    let plan = PartitionPlan::from_entities(scenario.rows.len() as u32, lookahead, entities);
    let neighbours = |row: &[u32]| row.iter().map(|&id| LpId(id)).collect();
    let topology = rows().map(|(p, row)| (LpId(p as u32), neighbours(row)));
    let processes = rows().map(|(p, row)| (LpId(p as u32), process(Relay::new(p, row))));
    let topology: BTreeMap<LpId, Vec<LpId>> = topology.collect();
    let plan = plan.expect("the plan is refused");
    let made = ConservativeRuntime::new(plan, topology, processes.collect());
    let mut runtime = made.expect("the build is refused");
    for &(source, destination, tick) in &scenario.initial {
        let event = RemoteEvent {
            source_lp: LpId(source),
            dest_lp: LpId(destination),
            tick: SimTime::from_ticks(u128::from(tick)),
            event_payload: vec![],
        };
        let answer = runtime.schedule_initial(event);
        answer.expect("an initial event is refused");
    }
    runtime
}

pub fn ended<P: ConservativeProcess>(runtime: &ConservativeRuntime<P>) -> Ended {
    let report = runtime.report();
    let gvt = runtime.gvt().ticks();
    [
        report.processed_events,
        report.emitted_events,
        report.remote_events,
        report.rounds,
        report.null_messages,
        report.worker_count as u64,
        (gvt >> 64) as u64,
        gvt as u64,
        runtime.pending_events() as u64,
    ]
}

/// What is timed: the build, the initial events and the run.
pub fn run(scenario: &Scenario) -> Ended {
    let mut runtime = built(scenario, |relay| relay);
    let horizon = SimTime::from_ticks(u128::from(scenario.horizon));
    let report = runtime.run_until_with_budget(horizon, usize::MAX);
    report.expect("the run is refused");
    ended(&runtime)
}
