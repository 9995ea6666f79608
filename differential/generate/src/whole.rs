//! Scenarios of whole runs.
use crate::calls::initial;
use crate::dice::Dice;
use crate::large;
use crate::odd::odd;
use crate::replies::message;
use crate::setups::{any_setup, good_setup};
use crate::shape::Shape;
use model::{Answer, Call, Event, Host, Odd, Refusal, Reply, Rules, Scenario, Setup};

/// A run that takes more calls than this is left out of its scenario; so is one that ends with 18,
/// which the original does not have.
const MOST_CALLS: usize = 600;

/// Makes up the replies while the rules run, and notes them.
struct Author<'a> {
    dice: &'a mut Dice,
    faults: u64,
    /// How many messages may still be emitted, so that runs end.
    left: u64,
    replies: Vec<Vec<Reply>>,
}

impl Author<'_> {
    fn reply(&mut self, host: &Host, event: &Event) -> Reply {
        let reply = self.next(host, event);
        if let Some(replies) = self.replies.get_mut(event.destination as usize) {
            replies.push(reply.clone());
        }
        reply
    }

    fn next(&mut self, host: &Host, event: &Event) -> Reply {
        if self.dice.one_in(self.faults * 3) {
            return Reply::Fails;
        }
        let count = self.dice.pick(&[0, 0, 1, 1, 2, 3]).min(self.left);
        self.left -= count;
        let message = |_| message(self.dice, &host.state, event, self.faults);
        Reply::Emits((0..count).map(message).collect())
    }
}

/// Adds runs that end, with the replies that they need.
pub fn add_runs(dice: &mut Dice, shape: &Shape, host: &mut Host, to: &mut Scenario) {
    let count = 1 + dice.below(4);
    let left = dice.pick(&[4, 8, 16]);
    let mut author = Author {
        faults: shape.faults,
        left,
        replies: to.setup.ids.iter().map(|_| vec![]).collect(),
        dice,
    };
    for _ in 0..count {
        let horizon = shape.horizon(author.dice, &host.state);
        let budget = shape.budget(author.dice);
        let kept = (host.clone(), author.replies.clone());
        let mut reply = |host: &Host, event: &Event| author.reply(host, event);
        let answer = host.run(horizon, budget, MOST_CALLS, &mut reply);
        if answer.is_some_and(|answer| answer != Answer::Refused(Refusal::QueueFull)) {
            to.runs.push((horizon, budget));
        } else {
            (*host, author.replies) = kept;
        }
    }
    to.replies = author.replies;
}

/// Initial events and runs for this setup.
fn filled(dice: &mut Dice, shape: &Shape, setup: Setup, odd: Option<Odd>) -> Scenario {
    let mut scenario = Scenario {
        setup,
        odd,
        initial: vec![],
        replies: vec![],
        runs: vec![],
    };
    if let Ok(mut host) = Host::build(Rules::RIGHT, &scenario.setup) {
        if let Some(odd) = &scenario.odd {
            host.set(odd);
        }
        for _ in 0..dice.below(9) {
            let message = initial(dice, shape, &host.state);
            host.call(&Call::AddInitial(message));
            scenario.initial.push(message);
        }
        add_runs(dice, shape, &mut host, &mut scenario);
    }
    scenario
}

/// A scenario of whole runs, now and then from a state set by hand. With different lookaheads or with the
/// plan's on every edge.
pub fn scenario(dice: &mut Dice, mixed: bool) -> Scenario {
    if dice.one_in(400) {
        return large::scenario(dice, mixed);
    }
    let shape = Shape::any(dice).with(mixed);
    let setup = good_setup(dice, &shape);
    let odd = odd(dice, &shape, &setup);
    filled(dice, &shape, setup, odd)
}

/// One that starts from build, which may be refused.
pub fn built_scenario(dice: &mut Dice, mixed: bool) -> Scenario {
    if dice.one_in(1000) {
        return large::scenario(dice, mixed);
    }
    let shape = Shape::natural(dice).with(mixed);
    let setup = match dice.one_in(8) {
        true => any_setup(dice, mixed),
        false => good_setup(dice, &shape),
    };
    filled(dice, &shape, setup, None)
}
