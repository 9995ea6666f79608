//! The amended rules were written twice: `model` and `runtime.rs` here. On plans whose edges carry different
//! lookaheads, which the original cannot judge, the two have to list the same.
use crate::compare::numbered;
use crate::file::Plan;
use crate::listing::{end_line, event_line, Answered};
use crate::rules;
use crate::runtime::Handed;
use model::{lookahead_words, Answer, Call, Emission, Event, Host, Rules, Setup};

/// So many plans are looked at, every other one with different lookaheads. Of these, runs of so many rounds.
const PLANS: u64 = 10_000;
const ROUNDS: u64 = 5_000;

/// The model as the host of a plan.
struct Run<'a> {
    plan: &'a Plan,
    host: Host,
    /// How many events each process was handed.
    handed: [usize; 64],
    text: String,
}

impl Run<'_> {
    fn hand_back(&mut self, batch: &[Event]) -> Answer {
        let (mut emissions, mut lines) = (vec![], String::new());
        for event in batch {
            let emitter = event.destination;
            let handed = &mut self.handed[emitter as usize];
            let reply = self.plan.replies_of(emitter).nth(*handed);
            *handed += 1;
            emissions.extend(reply.unwrap_or(&[]).iter().map(|m| Emission {
                emitter,
                message: m.message(),
            }));
            lines += &event_line(&Handed {
                process: emitter,
                tick: event.tick,
                source: event.source,
            });
        }
        let answer = self.host.call(&Call::HandBack { mask: 0, emissions });
        if matches!(answer.number(), 0 | 24) {
            self.text += &lines;
        }
        answer
    }

    /// The number that the run ends with.
    fn end(&mut self) -> usize {
        let Plan {
            horizon, budget, ..
        } = *self.plan;
        for event in &self.plan.initial {
            let answer = self.host.call(&Call::AddInitial(event.message()));
            if answer != Answer::Accepted {
                return answer.number();
            }
        }
        let mut answer = self.host.call(&Call::Begin { horizon, budget });
        loop {
            answer = match answer {
                Answer::Finished(_) => return 0,
                Answer::Refused(refusal) => return refusal.number(),
                Answer::Batch(batch, _) => self.hand_back(&batch),
                _ => self.host.call(&Call::Step),
            };
        }
    }
}

fn by_model(plan: &Plan) -> Answered {
    let setup = Setup {
        lookaheads: lookahead_words(plan.edges.iter().map(|e| e.lookahead)),
        ..plan.setup()
    };
    let host = match Host::build(Rules::RIGHT, &setup) {
        Ok(host) => host,
        Err(answer) => {
            let end = answer.number();
            let text = end_line(end, 0, 0, 0);
            return Answered::Listed { text, end };
        }
    };
    if plan.horizon / setup.least_lookahead() > 65_536 {
        return Answered::Number(39);
    }
    let mut run = Run {
        plan,
        host,
        handed: [0; 64],
        text: String::new(),
    };
    let end = run.end();
    let (gvt, c) = (run.host.state.gvt, run.host.counters);
    let text = run.text + &end_line(end, gvt, c.rounds, c.null_messages);
    Answered::Listed { text, end }
}

/// The rounds of a listing's end line.
fn rounds(answered: &Answered) -> u64 {
    let Answered::Listed { text, .. } = answered else {
        return 0;
    };
    let last = text.lines().last().unwrap_or("");
    last.split(' ').nth(3).map_or(0, |n| n.parse().unwrap())
}

#[test]
fn the_two_models_agree() {
    let mut met = [0; 41];
    for plan in (0..PLANS).map(|number| numbered(7_001, number)) {
        let answered = rules::ran(&plan).answered;
        if plan.uniform() || rounds(&answered) > ROUNDS {
            continue;
        }
        assert_eq!(by_model(&plan), answered, "{plan:?}");
        let number = match answered {
            Answered::Number(number) => number as usize,
            Answered::Listed { end, .. } => end,
        };
        met[number] += 1;
    }
    for number in [0, 5, 8, 9, 10, 24, 31, 32, 39, 40] {
        assert!(met[number] > 0, "{number} was not met: {met:?}");
    }
}
