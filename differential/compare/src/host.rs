//! A host that knows of a program its lines alone: it makes calls, answers batches from replies fixed
//! beforehand, and gathers what the original shows after each task.
use model::{Call, Emission, Event, Message, Reply, Task};
use std::collections::VecDeque;
use words::Line;

/// The parts of a line that the original shows too: it has no record of least inbound bounds, and they
/// are computed of its bounds (`oracle`). It keeps no budget, no count of events used and no batch
/// between runs, and has no open run.
pub const PARTS: [&str; 10] = [
    "answer",
    "counters",
    "sizes, next sequence number and GVT",
    "lookaheads and bounds of the edges",
    "pending events",
    "local horizons",
    "least inbound bounds",
    "stored horizon",
    "whether initial events are open",
    "whether it is poisoned",
];

/// What is seen after the build or a task.
#[derive(Clone, Debug, Eq, PartialEq)]
pub struct Shown {
    /// A refused build has its answer alone.
    pub parts: Vec<String>,
    /// GVT: 0 from build, then each other value that an answer carried.
    pub history: Vec<u128>,
    /// The events that each process was handed so far.
    pub handled: Vec<Vec<Message>>,
}

/// The parts of this line.
pub fn parts(line: &Line) -> Vec<String> {
    let but_last = |text: &str| text.rsplit_once(' ').map_or(text, |cut| cut.0).to_string();
    let flag = |at: usize| line.flags.get(at..at + 1).unwrap_or("").to_string();
    vec![
        line.answer.to_string(),
        but_last(line.counters),
        line.sizes.to_string(),
        line.edges.to_string(),
        line.pending.to_string(),
        line.horizons.to_string(),
        line.inbound.to_string(),
        but_last(line.stored),
        flag(0),
        flag(2),
    ]
}

pub struct Host {
    replies: Vec<VecDeque<Reply>>,
    history: Vec<u128>,
    handled: Vec<Vec<Message>>,
}

impl Host {
    /// Of a runtime of n processes.
    pub fn new(n: u64, replies: &[Vec<Reply>]) -> Self {
        Self {
            replies: replies.iter().map(|list| list.clone().into()).collect(),
            history: vec![0],
            handled: (0..n).map(|_| vec![]).collect(),
        }
    }

    pub fn shown(&self, line: &Line) -> Shown {
        Shown {
            parts: parts(line),
            history: self.history.clone(),
            handled: self.handled.clone(),
        }
    }

    /// A task, carried out by a program that prints a line for each call; the last line.
    pub fn carry_out<E>(
        &mut self,
        task: &Task,
        mut program: impl FnMut(Call) -> Result<String, E>,
    ) -> Result<String, E> {
        let mut line = match *task {
            Task::AddInitial(message) => return program(Call::AddInitial(message)),
            Task::Run { horizon, budget } => program(Call::Begin { horizon, budget })?,
        };
        while let Some(call) = Line::of(&line).and_then(|line| self.next(&line)) {
            line = program(call)?;
        }
        Ok(line)
    }

    /// What it calls next in a run: none where that is over, or the line is not understood.
    fn next(&mut self, line: &Line) -> Option<Call> {
        if let Some(gvt) = line.gvt().filter(|gvt| self.history.last() != Some(gvt)) {
            self.history.push(gvt);
        }
        match line.name() {
            "accepted" | "advanced" | "committed" => Some(Call::Step),
            "batch" => Some(self.answer(&line.events()?)),
            _ => None,
        }
    }

    /// The hand back with the next reply of each process; when there is none left, nothing is emitted.
    fn answer(&mut self, batch: &[Event]) -> Call {
        let (mut mask, mut emissions) = (0, vec![]);
        for event in batch {
            let emitter = event.destination;
            if let Some(handled) = self.handled.get_mut(emitter as usize) {
                handled.push(event.message());
            }
            let replies = self.replies.get_mut(emitter as usize);
            match replies.and_then(VecDeque::pop_front) {
                None => {}
                Some(Reply::Fails) => mask |= 1u64.checked_shl(emitter).unwrap_or(0),
                Some(Reply::Emits(messages)) => {
                    let emission = |message| Emission { emitter, message };
                    emissions.extend(messages.into_iter().map(emission));
                }
            }
        }
        Call::HandBack { mask, emissions }
    }
}
