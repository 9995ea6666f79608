//! The original as the host of a plan file: `new`, `schedule_initial` and `run_until_with_budget` as
//! they are, with handlers that answer from the file.
//!
//! It has one lookahead for all edges: files whose edges carry other ones than the plan's are judged by
//! the rules alone. Of all others, lines, GVT, rounds and null messages are the original's, and so is the
//! number wherever it has one. It has none for 37 to 39, 5 and 1 above 64, 17 and 18; nor for 26: there
//! its handler fails, so that it loses the batch as document 01 says, and its own number (27, or that of
//! an emission of an earlier process) gives way to 26.
use crate::file::{decode, Plan};
use crate::listing::{end_line, event_line, Answered};
use crate::rules;
use crate::runtime::Handed;
use model::{Message, Refusal, Reply, MOST_PAYLOAD, MOST_PENDING};
use oracle::{build, refusal, schedule_initial, tick, Origin, Runtime, Scripted};
use std::thread::ThreadId;

/// Who judged a file.
#[derive(Clone, Copy, Debug, Eq, PartialEq)]
pub enum By {
    /// The original, the number included.
    Rust,
    /// The original, but for the number; or nobody, where the bytes are no plan.
    Documents,
    /// The rules as a model: edges carry other lookaheads than the plan's.
    Model,
}

#[derive(Clone, Debug, Eq, PartialEq)]
pub struct Judged {
    pub answered: Answered,
    pub by: By,
}

impl From<Origin> for By {
    fn from(origin: Origin) -> Self {
        match origin {
            Origin::Rust => By::Rust,
            Origin::Rules => By::Documents,
        }
    }
}

fn by_documents(answered: Answered) -> Judged {
    Judged {
        answered,
        by: By::Documents,
    }
}

/// What each process answers with, in turn. A reply with a payload above 16 fails.
fn replies(plan: &Plan) -> Vec<Vec<Reply>> {
    let reply = |events: &[crate::file::Event]| {
        if events.iter().any(|e| e.payload.len() as u64 > MOST_PAYLOAD) {
            return Reply::Fails;
        }
        Reply::Emits(events.iter().map(|e| e.message()).collect())
    };
    let processes = 0..plan.n as u32;
    processes
        .map(|p| plan.replies_of(p).map(reply).collect())
        .collect()
}

/// Fails the reply at this place; replies before it that the file does not have are empty.
fn fail_at(replies: &mut [Vec<Reply>], (p, at): (u32, usize)) {
    let mine = &mut replies[p as usize];
    while mine.len() <= at {
        mine.push(Reply::Emits(vec![]));
    }
    mine[at] = Reply::Fails;
}

/// Where 18 can be answered to a hand back at all, the model says which one it is.
fn overfull(plan: &Plan) -> Option<(u32, usize)> {
    let emitted: usize = plan.replies.iter().map(|reply| reply.1.len()).sum();
    if plan.initial.len() + emitted <= MOST_PENDING {
        return None;
    }
    rules::ran(plan).overfull
}

/// A thread's number: `ThreadId` shows it by its `Debug` alone.
fn thread_number(id: ThreadId) -> u64 {
    let text = format!("{id:?}");
    let digits: String = text.chars().filter(char::is_ascii_digit).collect();
    digits.parse().expect("a thread has no number")
}

/// The events in the order of their handlers' threads. The original starts a thread for each event, round
/// by round and in a round by process, and a thread that is started later has a greater number.
fn in_order(runtime: &Runtime) -> Vec<Message> {
    let each = |p: &Scripted| -> Vec<(u64, Message)> {
        let threads = p.threads.iter().map(|id| thread_number(*id));
        threads.zip(p.handled.iter().copied()).collect()
    };
    let mut all: Vec<(u64, Message)> = runtime.processes().values().flat_map(each).collect();
    all.sort_by_key(|(thread, _)| *thread);
    all.into_iter().map(|(_, event)| event).collect()
}

/// The listing as the original left it. Of the events handed out, those count that it says were handled:
/// a batch that it lost is not among them.
fn listed(runtime: &Runtime, end: usize, by: Origin) -> Judged {
    let report = runtime.report();
    let handled = in_order(runtime);
    let handled = handled.iter().take(report.processed_events as usize);
    let line = |event: &Message| {
        event_line(&Handed {
            process: event.destination,
            tick: event.tick,
            source: event.source,
        })
    };
    let mut text: String = handled.map(line).collect();
    let gvt = runtime.gvt().ticks();
    text.push_str(&end_line(end, gvt, report.rounds, report.null_messages));
    Judged {
        answered: Answered::Listed { text, end },
        by: by.into(),
    }
}

/// Whether process p failed, having handled so many events before.
fn failed_at(runtime: &Runtime, (p, at): (u32, usize)) -> bool {
    let mut processes = runtime.processes().iter();
    processes.any(|(id, process)| id.0 == p && process.handled.len() == at + 1)
}

/// Whether a reply with a payload above 16 was due to an event that was handed out.
fn met_long_payload(runtime: &Runtime, plan: &Plan) -> bool {
    runtime.processes().iter().any(|(id, process)| {
        let mut handled = plan.replies_of(id.0).take(process.handled.len());
        handled.any(|reply| reply.iter().any(|e| e.payload.len() as u64 > MOST_PAYLOAD))
    })
}

fn run(runtime: &mut Runtime, plan: &Plan, overfull: Option<(u32, usize)>) -> Judged {
    let answer = runtime.run_until_with_budget(tick(plan.horizon), plan.budget as usize);
    let refused = answer.err().map(refusal);
    if met_long_payload(runtime, plan) {
        return listed(runtime, 26, Origin::Rules);
    }
    match (refused, overfull) {
        (Some(Refusal::HandlerFailed(p)), Some(place))
            if p == place.0 && failed_at(runtime, place) =>
        {
            listed(runtime, 18, Origin::Rules)
        }
        (Some(refused), _) => listed(runtime, refused.number(), Origin::Rust),
        (None, _) => listed(runtime, 0, Origin::Rust),
    }
}

/// "Build comes first, then 39, the initial events in turn, then the run; the first refusal ends it."
/// A plan whose edges all carry its lookahead.
pub fn by_original(plan: &Plan) -> Judged {
    assert!(plan.uniform(), "the original has one lookahead");
    let mut replies = replies(plan);
    let overfull = overfull(plan);
    if let Some(place) = overfull {
        fail_at(&mut replies, place);
    }
    let mut runtime = match build(&plan.setup(), &replies) {
        Ok(runtime) => runtime,
        Err((refused, by)) => {
            let end = refused.number();
            let text = end_line(end, 0, 0, 0);
            let answered = Answered::Listed { text, end };
            return Judged {
                answered,
                by: by.into(),
            };
        }
    };
    if plan.too_long() {
        return by_documents(Answered::Number(39));
    }
    for event in &plan.initial {
        if let Err((refused, by)) = schedule_initial(&mut runtime, &event.message()) {
            return listed(&runtime, refused.number(), by);
        }
    }
    run(&mut runtime, plan, overfull)
}

/// What is answered to a plan.
pub fn rehearsed(plan: &Plan) -> Judged {
    if plan.uniform() {
        return by_original(plan);
    }
    Judged {
        answered: rules::ran(plan).answered,
        by: By::Model,
    }
}

/// What is answered to these bytes.
pub fn judge(bytes: &[u8]) -> Judged {
    match decode(bytes) {
        Err(unread) => by_documents(Answered::Number(unread as u64)),
        Ok(plan) => rehearsed(&plan),
    }
}

/// Where all edges carry one lookahead that is not the plan's: what the original answers with that one as
/// the plan's. One of 0 is another refusal there.
pub fn with_carried(plan: &Plan) -> Option<Answered> {
    let carried = plan.carried()?;
    if plan.lookahead == 0 || carried == 0 {
        return None;
    }
    let other = Plan {
        lookahead: carried,
        ..plan.clone()
    };
    Some(by_original(&other).answered)
}
