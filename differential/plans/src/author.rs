//! Replies that fit: made up while the rules run, and noted.
use crate::file::{Edge, Event, Plan};
use crate::rules::hosted;
use crate::runtime::Handed;
use generate::Dice;

/// A run that takes more steps is left as it is.
const MOST_STEPS: usize = 4_000;

struct Author<'a> {
    dice: &'a mut Dice,
    n: u64,
    edges: Vec<Edge>,
    /// How many events may still be emitted.
    left: usize,
    /// One in so many emissions is faulty; none for 0.
    faults: u64,
    replies: Vec<(u32, Vec<Event>)>,
}

/// As a rule short; at most as long as 17 and 26 let pass.
pub fn payload(dice: &mut Dice) -> Vec<u8> {
    let length = dice.pick(&[0, 0, 0, 0, 0, 1, 2, 3, 15, 16]);
    (0..length).map(|_| dice.below(256) as u8).collect()
}

/// A payload that 17 and 26 refuse.
pub fn long_payload(dice: &mut Dice) -> Vec<u8> {
    let length = dice.pick(&[17, 18, 24, 30, 31]);
    (0..length).map(|_| dice.below(256) as u8).collect()
}

impl Author<'_> {
    /// Itself or one of its neighbours, and how much later an emission has to be there.
    fn destination(&mut self, p: u32) -> (u32, u128) {
        let mine = self.edges.iter().filter(|edge| edge.source == p);
        let row: Vec<Edge> = mine.copied().collect();
        if row.is_empty() || self.dice.one_in(3) {
            return (p, 0);
        }
        let edge = self.dice.pick(&row);
        (edge.destination, edge.lookahead)
    }

    /// An emission that is accepted in answer to the event.
    fn emission(&mut self, event: &Handed) -> Event {
        let source = event.process;
        let (destination, delay) = self.destination(source);
        let later = self.dice.pick(&[0, 0, 0, 1, 1, 2, 5]);
        Event {
            source,
            destination,
            tick: event.tick.saturating_add(delay).saturating_add(later),
            payload: payload(self.dice),
        }
    }

    /// One of 26 and 28 to 32, perhaps.
    fn spoil(&mut self, event: &Handed, e: &mut Event) {
        let n = self.n;
        match self.dice.below(6) {
            0 => e.source = self.dice.below(64) as u32,
            1 => e.destination = (n + self.dice.below(2)).min(63) as u32,
            2 => e.destination = self.dice.below(n) as u32,
            3 => e.tick = e.tick.saturating_sub(1 + u128::from(self.dice.below(3))),
            4 => e.payload = long_payload(self.dice),
            _ => e.tick = event.tick,
        }
    }

    fn reply(&mut self, event: &Handed) -> Vec<Event> {
        let count = self.dice.pick(&[0, 0, 1, 1, 2, 3]).min(self.left);
        self.left -= count;
        let mut emissions = vec![];
        for _ in 0..count {
            let mut emission = self.emission(event);
            if self.dice.one_in(self.faults) {
                self.spoil(event, &mut emission);
            }
            emissions.push(emission);
        }
        self.replies.push((event.process, emissions.clone()));
        emissions
    }
}

/// Gives a plan the replies that its run needs, at most so many emissions in all. Replies of different
/// processes come to stand in the order in which they are used.
pub fn add_replies(dice: &mut Dice, plan: &mut Plan, most: usize, faults: u64) {
    let mut author = Author {
        dice,
        n: plan.n,
        edges: plan.edges.clone(),
        left: most,
        faults,
        replies: vec![],
    };
    hosted(plan, MOST_STEPS, &mut |event, _| author.reply(event));
    plan.replies = author.replies;
    plan.replies.truncate(1_023);
}
