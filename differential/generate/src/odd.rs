//! States that no list of calls reaches: private fields set by hand.
use crate::dice::Dice;
use crate::shape::Shape;
use model::{Counters, Odd, Setup, Stored, MOST};

fn near_most(dice: &mut Dice) -> u64 {
    if dice.one_in(2) {
        MOST - dice.below(4)
    } else {
        dice.below(3)
    }
}

fn counters(dice: &mut Dice) -> Counters {
    if dice.one_in(2) {
        return Counters::default();
    }
    Counters {
        handled: near_most(dice),
        emitted: near_most(dice),
        remote: near_most(dice),
        rounds: near_most(dice),
        null_messages: near_most(dice),
        worker_count: dice.below(3),
    }
}

/// A stored horizon while initial events are open, or none while they are closed: 13 and 21 go by one
/// each.
fn stored(dice: &mut Dice, shape: &Shape) -> Option<Stored> {
    let horizon = shape.low + u128::from(dice.below(4));
    let budget = dice.below(4);
    dice.one_in(6).then_some(Stored { horizon, budget })
}

pub fn odd(dice: &mut Dice, shape: &Shape, setup: &Setup) -> Option<Odd> {
    if !shape.odd {
        return None;
    }
    let base = shape.low.saturating_sub(6);
    let zero = dice.one_in(5);
    let near = |dice: &mut Dice| {
        let above = u128::from(dice.below(12));
        if zero && dice.one_in(2) {
            return 0;
        }
        base + above
    };
    let edges = setup.destinations.iter();
    Some(Odd {
        bounds: edges.map(|_| near(dice)).collect(),
        horizons: setup.ids.iter().map(|_| near(dice)).collect(),
        record: None,
        lookahead: None,
        next: dice.pick(&[0, 1, MOST - 12, MOST - 5, MOST - 3, MOST - 1, MOST]),
        gvt: if dice.one_in(3) { near(dice) } else { 0 },
        initial: !dice.one_in(10),
        stored: stored(dice, shape),
        counters: counters(dice),
    })
}
