//! A scenario as a list of calls (docs/CALLS.md): the private functions of the original in the order of
//! its loop, with what each round emits written down.
use crate::in_place::{built, ended, Relay};
use crate::scenario::{Ended, Scenario};
use kairo_ecs_pdes_in_place::{ConservativeProcess, RemoteEvent};
use kairo_ecs_types::SimTime;

const ADD_INITIAL: u64 = 0;
const BEGIN: u64 = 1;
const STEP: u64 = 2;
const HAND_BACK: u64 = 3;

struct Recording {
    relay: Relay,
    sent: Vec<RemoteEvent>,
}

impl ConservativeProcess for Recording {
    fn on_event(&mut self, event: &RemoteEvent) -> Vec<RemoteEvent> {
        let emitted = self.relay.on_event(event);
        self.sent.extend(emitted.iter().cloned());
        emitted
    }
}

/// The words of the calls, how many there are, and what the original ends with.
pub struct Recorded {
    pub words: Vec<u64>,
    pub calls: u64,
    pub ended: Ended,
}

/// Source, destination, tick, and a payload of no bytes.
fn message(source: u32, destination: u32, tick: u128) -> [u64; 7] {
    let (hi, lo) = ((tick >> 64) as u64, tick as u64);
    [u64::from(source), u64::from(destination), hi, lo, 0, 0, 0]
}

fn push_emission(words: &mut Vec<u64>, emitter: u32, sent: &RemoteEvent) {
    words.push(u64::from(emitter));
    let tick = sent.tick.ticks();
    words.extend(message(sent.source_lp.0, sent.dest_lp.0, tick));
}

pub fn record(scenario: &Scenario) -> Recorded {
    let mut words = vec![];
    for &(source, destination, tick) in &scenario.initial {
        words.push(ADD_INITIAL);
        words.extend(message(source, destination, u128::from(tick)));
    }
    words.extend([BEGIN, 0, scenario.horizon, u64::MAX]);
    let mut calls = scenario.initial.len() as u64 + 1;
    let mut runtime = built(scenario, |relay| Recording {
        relay,
        sent: vec![],
    });
    let horizon = SimTime::from_ticks(u128::from(scenario.horizon));
    let top = SimTime::from_ticks(u128::from(scenario.horizon) + 1);
    let begun = runtime.call_opening(horizon, usize::MAX);
    begun.expect("begin is refused");
    loop {
        let safe = runtime.call_compute_safe_frontiers(top);
        let batches = runtime.call_take_eligible_batches(&safe, usize::MAX);
        let works = batches.values().any(|batch| !batch.is_empty());
        words.push(STEP);
        calls += 1;
        let mut goes_on = works;
        if works {
            let round = runtime.call_execute_round(batches);
            round.expect("a round is refused");
            words.extend([HAND_BACK, 0]);
            let place = words.len();
            words.push(0);
            for (id, process) in runtime.inside_processes() {
                for sent in process.sent.drain(..) {
                    push_emission(&mut words, id.0, &sent);
                    words[place] += 1;
                }
            }
            calls += 1;
        } else {
            goes_on = runtime.call_advance_bounds(&safe, top);
        }
        runtime.inside_report().rounds += u64::from(goes_on);
        runtime.call_refresh_gvt(&safe, horizon);
        if !goes_on {
            break;
        }
    }
    let ended = ended(&runtime);
    Recorded {
        words,
        calls,
        ended,
    }
}
