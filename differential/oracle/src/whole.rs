//! The original as whole runs, through its public interface: `new`, `schedule_initial` and
//! `run_until_with_budget` as they are, with handlers that answer from lists.
//!
//! Public too are what was handled, the report, GVT and how many events are pending. The pending
//! events themselves, the bounds, local horizons, next sequence number and flags are read by our
//! accessors, between the calls.
use crate::build::{build, Runtime};
use crate::convert::{event, refusal, tick};
use crate::view::{self, Beside};
use crate::Origin;
use model::{Answer, Counters, Message, Odd, Refusal, Reply, Setup, State, Task};

/// What is seen after a build, an initial event or a run. Of the state, what the original keeps.
#[derive(Clone, Debug)]
pub struct Ran {
    pub answer: Answer,
    pub counters: Counters,
    pub state: State,
    pub history: Vec<u128>,
    /// The events that each process was handed so far.
    pub handled: Vec<Vec<Message>>,
}

/// After the build, then after each task. A refused build is alone.
#[derive(Clone, Debug)]
pub struct Whole {
    pub built: Result<Ran, (Refusal, Origin)>,
    pub ran: Vec<Ran>,
}

fn seen(runtime: &Runtime, answer: Answer) -> Ran {
    let state = view::state(runtime, &Beside::default());
    assert_eq!(
        runtime.pending_events(),
        state.pending.len(),
        "the queues do not hold as many events as are said to be pending"
    );
    Ran {
        answer,
        counters: view::counters(runtime),
        state,
        history: view::history(runtime),
        handled: view::handled(runtime),
    }
}

fn schedule(runtime: &mut Runtime, message: &Message) -> Answer {
    match runtime.schedule_initial(event(message)) {
        Ok(()) => Answer::Accepted,
        Err(error) => Answer::Refused(refusal(error)),
    }
}

fn run(runtime: &mut Runtime, horizon: u128, budget: u64) -> Answer {
    match runtime.run_until_with_budget(tick(horizon), budget as usize) {
        Ok(report) => {
            assert_eq!(&report, runtime.report(), "the report is not the report");
            Answer::Finished(runtime.gvt().ticks())
        }
        Err(error) => Answer::Refused(refusal(error)),
    }
}

fn carry_out(runtime: &mut Runtime, task: &Task) -> Ran {
    let answer = match task {
        Task::AddInitial(message) => schedule(runtime, message),
        Task::Run { horizon, budget } => run(runtime, *horizon, *budget),
    };
    seen(runtime, answer)
}

/// Carries out these tasks on the original. Fields are set by hand only where `odd` says so.
pub fn run_whole(
    setup: &Setup,
    odd: Option<&Odd>,
    replies: &[Vec<Reply>],
    tasks: &[Task],
) -> Whole {
    let mut runtime = match build(setup, replies) {
        Ok(runtime) => runtime,
        Err(refused) => {
            return Whole {
                built: Err(refused),
                ran: vec![],
            }
        }
    };
    if let Some(odd) = odd {
        view::set(&mut runtime, odd);
    }
    let built = Ok(seen(&runtime, Answer::Accepted));
    let ran = tasks.iter().map(|t| carry_out(&mut runtime, t)).collect();
    Whole { built, ran }
}
