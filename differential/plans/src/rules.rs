//! The rules as the host of a plan. They judge 18, which the original does not have, and plans whose edges
//! carry other lookaheads than the plan's; otherwise they are held to what the original answers.
use crate::file::{Event, Plan};
use crate::listing::{end_line, event_line, Answered};
use crate::runtime::{Handed, Number, Runtime, Step};

/// A run by the rules.
pub struct Ran {
    pub answered: Answered,
    /// Where 18 was answered to a hand back: the last process of that batch, and how many events it had
    /// handled before.
    pub overfull: Option<(u32, usize)>,
}

struct Run<'a> {
    runtime: Runtime,
    /// What is emitted in answer to the k-th event of its process, from 0.
    reply: &'a mut dyn FnMut(&Handed, usize) -> Vec<Event>,
    lines: String,
    /// How many events each process was handed.
    handed: [usize; 64],
}

impl Run<'_> {
    fn hand_back(&mut self, batch: &[Handed]) -> Result<(), Number> {
        let mut replies = vec![];
        for event in batch {
            let handed = &mut self.handed[event.process as usize];
            replies.push((self.reply)(event, *handed));
            *handed += 1;
        }
        let answer = self.runtime.hand_back(batch, &replies);
        // "none for a batch refused by other than 24"
        if matches!(answer, Ok(()) | Err(24)) {
            self.lines.extend(batch.iter().map(event_line));
        }
        answer
    }

    /// "the initial events in turn, then the run; the first refusal ends it"
    fn opened(&mut self, plan: &Plan) -> Result<(), Number> {
        for event in &plan.initial {
            self.runtime.add_initial(event)?;
        }
        self.runtime.begin(plan.horizon, plan.budget)
    }

    /// Steps until it ends, at most so many. What 18 was answered to.
    fn run(&mut self, most: usize) -> (Number, Option<(u32, usize)>) {
        for _ in 0..most {
            match self.runtime.step() {
                Step::Finished => return (0, None),
                Step::Refused(number) => return (number, None),
                Step::Advanced => {}
                Step::Batch(batch) => {
                    let Err(number) = self.hand_back(&batch) else {
                        continue;
                    };
                    let place = |e: &Handed| (e.process, self.handed[e.process as usize] - 1);
                    return (number, batch.last().filter(|_| number == 18).map(place));
                }
            }
        }
        (0, None)
    }

    fn ended(mut self, plan: &Plan, most: usize) -> Ran {
        let (end, overfull) = match self.opened(plan) {
            Err(number) => (number, None),
            Ok(()) => self.run(most),
        };
        let (gvt, c) = (self.runtime.gvt, &self.runtime);
        let last = end_line(end, gvt, c.rounds, c.null_messages);
        self.lines.push_str(&last);
        Ran {
            overfull,
            answered: Answered::Listed {
                text: self.lines,
                end,
            },
        }
    }
}

/// "Build comes first, then 39, the initial events in turn, then the run". The run has at most so many
/// steps.
pub fn hosted(
    plan: &Plan,
    most: usize,
    reply: &mut dyn FnMut(&Handed, usize) -> Vec<Event>,
) -> Ran {
    let alone = |answered| Ran {
        answered,
        overfull: None,
    };
    match Runtime::build(plan) {
        Err(end) => {
            let text = end_line(end, 0, 0, 0);
            alone(Answered::Listed { text, end })
        }
        Ok(_) if plan.too_long() => alone(Answered::Number(39)),
        Ok(runtime) => {
            let run = Run {
                runtime,
                reply,
                lines: String::new(),
                handed: [0; 64],
            };
            run.ended(plan, most)
        }
    }
}

/// The run of a plan, which ends: 39 let it pass, and a file has few events.
pub fn ran(plan: &Plan) -> Ran {
    let mut replies: Vec<Vec<&[Event]>> = vec![];
    for p in 0..plan.n as u32 {
        replies.push(plan.replies_of(p).collect());
    }
    let mut reply = |event: &Handed, at: usize| {
        let due = replies[event.process as usize].get(at);
        due.map_or(vec![], |reply| reply.to_vec())
    };
    hosted(plan, usize::MAX, &mut reply)
}
