//! A host of the rules: it makes calls, gathers `gvt_history` and what each process handled, and
//! can drive a whole run as `run_until_with_budget` does.
use crate::answers::{Answer, Refusal};
use crate::build::Setup;
use crate::calls::{Call, Emission};
use crate::state::{Counters, Event, Message, State, Stored};
use crate::variant::Rules;

/// What a process answers an event with.
#[derive(Clone, Debug, Eq, PartialEq)]
pub enum Reply {
    Emits(Vec<Message>),
    Fails,
}

/// Private fields set by hand after build, to reach states that a list of calls does not reach.
/// Bounds are in the order of build's list. A.2's record is that of these bounds, but for the process
/// in `record`, if any, and the edge with the number `lookahead`, if any, has a lookahead of 0: such a state is
/// foreign, and the original cannot have it.
#[derive(Clone, Debug, Eq, PartialEq)]
pub struct Odd {
    pub bounds: Vec<u128>,
    pub horizons: Vec<u128>,
    pub record: Option<(usize, u128)>,
    pub lookahead: Option<usize>,
    pub next: u64,
    pub gvt: u128,
    pub initial: bool,
    pub stored: Option<Stored>,
    pub counters: Counters,
}

/// The record with what is set by hand for one process, if anything is.
pub fn with_record(mut inbound: Vec<u128>, record: Option<(usize, u128)>) -> Vec<u128> {
    if let Some((p, to)) = record {
        if let Some(tick) = inbound.get_mut(p) {
            *tick = to;
        }
    }
    inbound
}

/// A list of calls: a build, and the calls on what it made.
#[derive(Clone, Debug, Eq, PartialEq)]
pub struct List {
    pub setup: Setup,
    pub odd: Option<Odd>,
    pub calls: Vec<Call>,
}

/// Build arguments, initial events, a list of replies for each process of which the k-th answers its
/// k-th event and later ones are empty, and runs with horizon and budget.
#[derive(Clone, Debug, Eq, PartialEq)]
pub struct Scenario {
    pub setup: Setup,
    pub odd: Option<Odd>,
    pub initial: Vec<Message>,
    pub replies: Vec<Vec<Reply>>,
    pub runs: Vec<(u128, u64)>,
}

/// What is asked of a runtime once it is built: `schedule_initial` or a whole run.
#[derive(Clone, Copy, Debug, Eq, PartialEq)]
pub enum Task {
    AddInitial(Message),
    Run { horizon: u128, budget: u64 },
}

impl Scenario {
    /// The initial events, then the runs. Behind each run one of the initial events is offered once
    /// more; it is taken only where no run was accepted before.
    pub fn tasks(&self) -> Vec<Task> {
        let mut tasks: Vec<Task> = self.initial.iter().map(|m| Task::AddInitial(*m)).collect();
        let mut late = self.initial.iter().cycle();
        for &(horizon, budget) in &self.runs {
            tasks.push(Task::Run { horizon, budget });
            tasks.extend(late.next().map(|m| Task::AddInitial(*m)));
        }
        tasks
    }
}

#[derive(Clone, Debug)]
pub struct Host {
    pub rules: Rules,
    pub state: State,
    pub counters: Counters,
    pub history: Vec<u128>,
    /// The events that each process handled, those of a batch lost later among them.
    pub handled: Vec<Vec<Message>>,
}

impl Host {
    /// Build, or what it answered.
    pub fn build(rules: Rules, setup: &Setup) -> Result<Self, Answer> {
        let made = rules.build(setup, Counters::default());
        let state = made.made.ok_or(made.answer)?;
        Ok(Self {
            handled: state.processes().map(|_| vec![]).collect(),
            rules,
            state,
            counters: made.counters,
            history: vec![0],
        })
    }

    pub fn set(&mut self, odd: &Odd) {
        for (edge, &bound) in self.state.edges.iter_mut().zip(&odd.bounds) {
            edge.bound = bound;
        }
        let zero = odd.lookahead.and_then(|at| self.state.edges.get_mut(at));
        if let Some(edge) = zero {
            edge.lookahead = 0;
        }
        let right = Rules::RIGHT.inbound_of(self.state.n, &self.state.edges);
        self.state.inbound = with_record(right, odd.record);
        for (horizon, &to) in self.state.horizons.iter_mut().zip(&odd.horizons) {
            *horizon = to;
        }
        self.state.next = odd.next;
        self.state.gvt = odd.gvt;
        self.state.initial = odd.initial;
        self.state.stored = odd.stored;
        self.counters = odd.counters;
    }

    pub fn call(&mut self, call: &Call) -> Answer {
        let given = self.state.clone();
        let batch = match call {
            Call::HandBack { .. } => given.batch.clone(),
            _ => vec![],
        };
        let gvt = given.gvt;
        let out = self.rules.rule(given, self.counters, call);
        self.state = out.after;
        self.counters = out.counters;
        if self.state.gvt != gvt {
            self.history.push(self.state.gvt);
        }
        if was_handled(&out.answer) {
            self.note(&batch);
        }
        out.answer
    }

    fn note(&mut self, batch: &[Event]) {
        for event in batch {
            if let Some(handled) = self.handled.get_mut(event.destination as usize) {
                handled.push(event.message());
            }
        }
    }

    /// A whole run: begin, then step and hand back until Finished or a refusal. None if that takes
    /// more than `most` calls.
    pub fn run(
        &mut self,
        horizon: u128,
        budget: u64,
        most: usize,
        reply: &mut dyn FnMut(&Self, &Event) -> Reply,
    ) -> Option<Answer> {
        let mut answer = self.call(&Call::Begin { horizon, budget });
        for _ in 0..most {
            answer = match answer {
                Answer::Finished(_) | Answer::Refused(_) => return Some(answer),
                Answer::Batch(events, _) => {
                    let call = self.replies(&events, reply);
                    self.call(&call)
                }
                _ => self.call(&Call::Step),
            };
        }
        None
    }

    /// The hand back with each process's reply to its event.
    fn replies(&self, events: &[Event], reply: &mut dyn FnMut(&Self, &Event) -> Reply) -> Call {
        let mut mask = 0;
        let mut emissions = vec![];
        for event in events {
            let emitter = event.destination;
            match reply(self, event) {
                Reply::Fails => mask |= 1u64.checked_shl(emitter).unwrap_or(0),
                Reply::Emits(messages) => emissions.extend(
                    messages
                        .into_iter()
                        .map(|message| Emission { emitter, message }),
                ),
            }
        }
        Call::HandBack { mask, emissions }
    }
}

/// Whether a hand back with this answer ran its handlers.
fn was_handled(answer: &Answer) -> bool {
    use Refusal::*;
    !matches!(
        answer,
        Answer::Refused(ForeignState | Poisoned | NoBatch | MalformedReply)
    )
}
