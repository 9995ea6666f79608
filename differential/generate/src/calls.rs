//! The next call of a list, given what the calls so far have left.
use crate::dice::Dice;
use crate::plans::small_plan;
use crate::replies::{hand_back, long_payload, message, payload};
use crate::setups::any_id;
use crate::shape::Shape;
use model::{Call, Emission, Message, State};

/// An initial event on a route, as a rule.
pub fn initial(dice: &mut Dice, shape: &Shape, s: &State) -> Message {
    let self_loop = dice.below(u64::from(shape.n)) as u32;
    let (mut source, mut destination) = (self_loop, self_loop);
    if !s.edges.is_empty() && !dice.one_in(3) {
        let edge = s.edges[dice.index(s.edges.len())];
        (source, destination) = (edge.source, edge.destination);
    }
    match dice.below(24) {
        0 => source = any_id(dice, shape.n),
        1 => destination = any_id(dice, shape.n),
        _ => {}
    }
    Message {
        source,
        destination,
        tick: shape.tick(dice),
        payload: payload(dice),
    }
}

fn add_initial(dice: &mut Dice, shape: &Shape, s: &State) -> Call {
    let mut message = initial(dice, shape, s);
    if dice.one_in(20) {
        message.payload = long_payload(dice);
    }
    Call::AddInitial(message)
}

fn begin(dice: &mut Dice, shape: &Shape, s: &State) -> Call {
    Call::Begin {
        horizon: shape.horizon(dice, s),
        budget: shape.budget(dice),
    }
}

/// A hand back where perhaps none is due.
fn any_hand_back(dice: &mut Dice, s: &State) -> Call {
    let mut emissions = vec![];
    if let Some(e) = s.batch.first().or(s.pending.first()) {
        for _ in 0..dice.below(3) {
            emissions.push(Emission {
                emitter: any_id(dice, s.n as u32),
                message: message(dice, s, e, 3),
            });
        }
    }
    Call::HandBack {
        mask: dice.pick(&[0, 0, 1, 2]),
        emissions,
    }
}

/// Any call at all.
fn any_call(dice: &mut Dice, shape: &Shape, s: &State) -> Call {
    match dice.below(12) {
        0 | 1 => add_initial(dice, shape, s),
        2 | 3 => begin(dice, shape, s),
        4 | 5 => Call::Step,
        6 | 7 => any_hand_back(dice, s),
        8 => dice.pick(&[&Call::ReadGvt, &Call::ReadCounters]).clone(),
        9 => dice
            .pick(&[&Call::ReadPending, &Call::ReadEarliest])
            .clone(),
        10 => small_plan(dice),
        _ => hand_back(dice, s, 3),
    }
}

/// The call that is due, as a rule.
pub fn next_call(dice: &mut Dice, shape: &Shape, s: &State) -> Call {
    if s.poisoned || dice.one_in(9) {
        return any_call(dice, shape, s);
    }
    if s.running && s.batch.is_empty() {
        return Call::Step;
    }
    if s.running {
        return hand_back(dice, s, shape.faults);
    }
    let too_soon = s.pending.is_empty() && !dice.one_in(6);
    if s.initial && (too_soon || !dice.one_in(shape.eager)) {
        return add_initial(dice, shape, s);
    }
    begin(dice, shape, s)
}
