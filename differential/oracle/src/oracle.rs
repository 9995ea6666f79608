//! The original call by call: its private functions in the order of its loop, cut where handlers run.
use crate::build::{build, Runtime};
use crate::convert::{refusal, tick};
use crate::plan::plan;
use crate::room;
use crate::view::{self, Beside};
use crate::Origin;
use kairo_ecs_pdes::{LpId, RemoteEvent, RuntimeError};
use kairo_ecs_types::SimTime;
use model::{
    malformed, Answer, Call, Counters, Emission, Event, Message, Odd, Reading, Refusal, Reply,
    Rules, Setup, State, TOP,
};
use std::collections::BTreeMap;

type Told = (Answer, Origin);
type Refused = (Refusal, Origin);

/// The local variables of the loop while a batch is in hand.
struct Held {
    safe: BTreeMap<LpId, SimTime>,
    batches: BTreeMap<LpId, Vec<RemoteEvent>>,
}

pub struct Oracle {
    runtime: Runtime,
    beside: Beside,
    held: Option<Held>,
}

fn alone<T>(refusal: Refusal) -> Result<T, Refused> {
    Err((refusal, Origin::Rules))
}

fn by_rust(error: RuntimeError) -> Refused {
    (refusal(error), Origin::Rust)
}

impl Oracle {
    pub fn build(setup: &Setup) -> Result<Self, Told> {
        let runtime = build(setup, &[]).map_err(|(refused, by)| (Answer::Refused(refused), by))?;
        Ok(Self {
            runtime,
            beside: Beside::default(),
            held: None,
        })
    }

    pub fn set(&mut self, odd: &Odd) {
        view::set(&mut self.runtime, odd);
        self.beside.budget = odd.stored.map_or(0, |stored| stored.budget);
        self.beside.record = odd.record;
    }

    pub fn state(&self) -> State {
        view::state(&self.runtime, &self.beside)
    }

    pub fn counters(&self) -> Counters {
        view::counters(&self.runtime)
    }

    pub fn history(&self) -> Vec<u128> {
        view::history(&self.runtime)
    }

    pub fn handled(&self) -> Vec<Vec<Message>> {
        view::handled(&self.runtime)
    }

    /// Carries out a call. Every call on a state checks 11 first.
    pub fn call(&mut self, call: &Call) -> Told {
        if let Call::Plan {
            n,
            lookahead,
            lent,
            entities,
        } = call
        {
            let planned = plan(*n, *lookahead, entities, *lent);
            return (planned.laid.answer, planned.origin);
        }
        if Rules::RIGHT.foreign(&self.state()) {
            return (Answer::Refused(Refusal::ForeignState), Origin::Rules);
        }
        let told = match call {
            Call::AddInitial(message) => self.add_initial(message),
            Call::Begin { horizon, budget } => self.begin(*horizon, *budget),
            Call::Step => self.step(),
            Call::HandBack { mask, emissions } => self.hand_back(*mask, emissions),
            _ => Ok(self.read(call)),
        };
        told.unwrap_or_else(|(refused, by)| (Answer::Refused(refused), by))
    }

    fn add_initial(&mut self, message: &Message) -> Result<Told, Refused> {
        room::schedule_initial(&mut self.runtime, message)?;
        Ok((Answer::Accepted, Origin::Rust))
    }

    /// 20 stands between 12 and 21.
    fn begin(&mut self, horizon: u128, budget: u64) -> Result<Told, Refused> {
        self.runtime.call_ensure_healthy().map_err(by_rust)?;
        if self.beside.running {
            return alone(Refusal::RunOpen);
        }
        let opened = self.runtime.call_opening(tick(horizon), budget as usize);
        opened.map_err(by_rust)?;
        self.beside.budget = budget;
        self.beside.used = 0;
        self.beside.running = true;
        Ok((Answer::Accepted, Origin::Rust))
    }

    /// The accepted horizon, and that plus 1.
    fn horizons(&self) -> (SimTime, SimTime) {
        let horizon = self.runtime.inside_last_horizon().unwrap_or(SimTime::ZERO);
        (horizon, tick(horizon.ticks().saturating_add(1)))
    }

    fn gvt(&self) -> u128 {
        self.runtime.gvt().ticks()
    }

    fn step(&mut self) -> Result<Told, Refused> {
        self.runtime.call_ensure_healthy().map_err(by_rust)?;
        if !self.beside.running || self.held.is_some() {
            return alone(Refusal::NothingToStep);
        }
        let (_, exclusive) = self.horizons();
        let safe = self.runtime.call_compute_safe_frontiers(exclusive);
        let remaining = self.beside.budget.saturating_sub(self.beside.used);
        let before = view::pending(&self.runtime);
        let batches = self
            .runtime
            .call_take_eligible_batches(&safe, remaining as usize);
        if batches.values().any(|batch| !batch.is_empty()) {
            return Ok(self.hold(before, safe, batches));
        }
        self.spent(&safe)?;
        Ok(self.advance(&safe))
    }

    /// Keeps the batch. The original drops the sequence numbers of what it takes: they are those of
    /// the pending events that are gone.
    fn hold(
        &mut self,
        mut before: Vec<Event>,
        safe: BTreeMap<LpId, SimTime>,
        batches: BTreeMap<LpId, Vec<RemoteEvent>>,
    ) -> Told {
        let left = view::pending(&self.runtime);
        before.retain(|event| !left.contains(event));
        let taken = batches.values().flatten().map(crate::convert::message);
        assert!(
            taken.eq(before.iter().map(|event| event.message())),
            "the original's batch is not what is gone from its queues"
        );
        self.beside.batch = before.clone();
        self.held = Some(Held { safe, batches });
        (Answer::Batch(before, self.gvt()), Origin::Rust)
    }

    /// 24.
    fn spent(&mut self, safe: &BTreeMap<LpId, SimTime>) -> Result<(), Refused> {
        let Beside { budget, used, .. } = self.beside;
        if used >= budget && self.runtime.call_has_eligible_event(safe) {
            self.beside.running = false;
            return Err((Refusal::EventBudgetExceeded(budget), Origin::Rust));
        }
        Ok(())
    }

    fn count_round(&mut self) {
        let report = self.runtime.inside_report();
        report.rounds = report.rounds.saturating_add(1);
    }

    fn advance(&mut self, safe: &BTreeMap<LpId, SimTime>) -> Told {
        let (inclusive, exclusive) = self.horizons();
        let advanced = self.runtime.call_advance_bounds(safe, exclusive);
        if advanced {
            self.count_round();
        }
        self.runtime.call_refresh_gvt(safe, inclusive);
        if advanced {
            return (Answer::Advanced(self.gvt()), Origin::Rust);
        }
        if self.runtime.call_is_complete(exclusive) {
            self.beside.running = false;
            return (Answer::Finished(self.gvt()), Origin::Rust);
        }
        self.runtime.set_poisoned();
        (Answer::Refused(Refusal::Poisoned), Origin::Rust)
    }

    fn hand_back(&mut self, mask: u64, emissions: &[Emission]) -> Result<Told, Refused> {
        self.runtime.call_ensure_healthy().map_err(by_rust)?;
        if self.held.is_none() {
            return alone(Refusal::NoBatch);
        }
        if malformed(&self.beside.batch, mask, emissions) {
            return alone(Refusal::MalformedReply);
        }
        let Some(held) = self.held.take() else {
            return alone(Refusal::NoBatch);
        };
        let batch = std::mem::take(&mut self.beside.batch);
        self.prime(&batch, mask, emissions);
        room::execute_round(&mut self.runtime, held.batches, emissions.len())?;
        self.beside.used = self.beside.used.saturating_add(batch.len() as u64);
        self.count_round();
        self.spent(&held.safe)?;
        let (inclusive, _) = self.horizons();
        self.runtime.call_refresh_gvt(&held.safe, inclusive);
        Ok((Answer::Committed(self.gvt()), Origin::Rust))
    }

    /// Gives each process of the batch its reply to the event that comes next.
    fn prime(&mut self, batch: &[Event], mask: u64, emissions: &[Emission]) {
        let processes = self.runtime.inside_processes();
        for event in batch {
            let p = event.destination;
            let mine = emissions.iter().filter(|x| x.emitter == p);
            let reply = if mask >> p & 1 == 1 {
                Reply::Fails
            } else {
                Reply::Emits(mine.map(|x| x.message).collect())
            };
            if let Some(process) = processes.get_mut(&LpId(p)) {
                process.replies = [reply].into();
            }
        }
    }

    /// The original has no earliest pending tick.
    fn read(&self, call: &Call) -> Told {
        let earliest = || {
            let ticks = view::pending(&self.runtime).into_iter().map(|e| e.tick);
            ticks.fold(TOP, u128::min)
        };
        let (reading, by) = match call {
            Call::ReadGvt => (Reading::Gvt(self.gvt()), Origin::Rust),
            Call::ReadCounters => (
                Reading::Counted(self.counters(), self.beside.used),
                Origin::Rust,
            ),
            Call::ReadPending => (
                Reading::Pending(self.runtime.pending_events() as u64),
                Origin::Rust,
            ),
            _ => (Reading::Earliest(earliest()), Origin::Rules),
        };
        (Answer::Read(reading), by)
    }
}
