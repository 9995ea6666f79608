//! Lists of calls.
use crate::calls::next_call;
use crate::dice::Dice;
use crate::foreign::wrong_record;
use crate::large;
use crate::odd::odd;
use crate::setups::{any_setup, good_setup};
use crate::shape::Shape;
use model::{Call, Host, List, Odd, Rules, Setup, Stored, TOP};

/// The calls that follow from what the rules answer, `count` of them; a few where it gets poisoned.
fn follow(dice: &mut Dice, shape: &Shape, host: &mut Host, count: u64) -> Vec<Call> {
    let mut calls = vec![];
    for _ in 0..count {
        if host.state.poisoned && dice.one_in(3) {
            break;
        }
        let call = next_call(dice, shape, &host.state);
        host.call(&call);
        calls.push(call);
    }
    calls
}

fn list_of(dice: &mut Dice, shape: &Shape, setup: Setup, odd: Option<Odd>, count: u64) -> List {
    let mut list = List {
        setup,
        odd,
        calls: vec![],
    };
    match Host::build(Rules::RIGHT, &list.setup) {
        Err(_) => list.calls = vec![Call::Step; dice.index(2)],
        Ok(mut host) => {
            if let Some(odd) = &list.odd {
                host.set(odd);
            }
            list.calls = follow(dice, shape, &mut host, count);
        }
    }
    list
}

/// A record that is wrong in one process.
fn record(dice: &mut Dice, setup: &Setup, odd: &Odd) -> Option<(usize, u128)> {
    let mut host = Host::build(Rules::RIGHT, setup).ok()?;
    host.set(odd);
    let which = dice.below(3);
    wrong_record(dice, which, &host.state.inbound)
}

/// The first, the last or any one of so many.
fn one_of(dice: &mut Dice, count: usize) -> Option<usize> {
    let last = count.checked_sub(1)?;
    Some(match dice.below(3) {
        0 => 0,
        1 => last,
        _ => dice.index(count),
    })
}

/// A list of calls, now and then from a state set by hand, a foreign one among these. With different
/// lookaheads or with the plan's on every edge.
pub fn list(dice: &mut Dice, mixed: bool) -> List {
    if dice.one_in(250) {
        return large::list(dice, mixed);
    }
    let shape = Shape::any(dice).with(mixed);
    let setup = good_setup(dice, &shape);
    let mut odd = odd(dice, &shape, &setup);
    if let Some(odd) = &mut odd {
        if dice.one_in(60) {
            let budget = 1;
            odd.stored = Some(Stored {
                horizon: TOP,
                budget,
            });
        } else if dice.one_in(12) {
            odd.record = record(dice, &setup, odd);
        } else if mixed && dice.one_in(12) {
            odd.lookahead = one_of(dice, setup.destinations.len());
        }
    }
    let count = match dice.below(10) {
        0 => 40 + dice.below(30),
        _ => 6 + dice.below(14),
    };
    list_of(dice, &shape, setup, odd, count)
}

/// The shape of a list that is stored: small, and faulty as a rule.
fn stored_shape(dice: &mut Dice, mixed: bool) -> Shape {
    let shape = Shape::natural(dice).with(mixed);
    Shape {
        n: shape.n.min(4),
        spread: 2 + dice.below(4),
        faults: dice.pick(&[0, 2, 4]),
        eager: dice.pick(&[2, 3]),
        ..shape
    }
}

/// A list for the stored sample: from build alone, and short. The first ones are large.
pub fn stored_list(dice: &mut Dice, number: u64, mixed: bool) -> List {
    if number < large::STORED {
        return large::stored_list(dice, number, mixed);
    }
    let shape = stored_shape(dice, mixed);
    if dice.one_in(7) {
        let setup = any_setup(dice, mixed);
        return list_of(dice, &shape, setup, None, 0);
    }
    let setup = good_setup(dice, &shape);
    let count = 5 + dice.below(10);
    list_of(dice, &shape, setup, None, count)
}
