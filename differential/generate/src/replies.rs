//! What processes answer, good replies and others.
use crate::dice::Dice;
use crate::setups::any_id;
use model::{Call, Edge, Emission, Event, Message, Payload, State, MOST, TOP};

pub fn payload(dice: &mut Dice) -> Payload {
    let length = dice.pick(&[0, 0, 0, 0, 0, 1, 1, 2, 3, 16]);
    let byte = dice.below(256) as u8;
    Payload::new(length, [byte; 16])
}

/// A payload of which 17 and 26 are told.
pub fn long_payload(dice: &mut Dice) -> Payload {
    Payload::new(dice.pick(&[17, 18, 1 << 32, MOST]), [7; 16])
}

/// A destination that p may send to.
fn destination(dice: &mut Dice, s: &State, p: u32) -> u32 {
    let out: Vec<u32> = s
        .edges
        .iter()
        .filter(|e| e.source == p)
        .map(|e| e.destination)
        .collect();
    if out.is_empty() || dice.one_in(3) {
        p
    } else {
        dice.pick(&out)
    }
}

/// The lookahead of the edge, or the plan's where there is none.
fn lookahead(s: &State, from: u32, to: u32) -> u128 {
    let along = |e: &&Edge| e.source == from && e.destination == to;
    let edge = s.edges.iter().find(along);
    edge.map_or(s.lookahead, |e| e.lookahead)
}

fn minimum(s: &State, e: &Event, to: u32) -> u128 {
    if to == e.destination {
        e.tick
    } else {
        e.tick.saturating_add(lookahead(s, e.destination, to))
    }
}

/// Whether an edge has another lookahead than the plan's.
fn is_mixed(s: &State) -> bool {
    s.edges.iter().any(|e| e.lookahead != s.lookahead)
}

/// A message that is accepted in answer to the event e, as a rule.
fn good_message(dice: &mut Dice, s: &State, e: &Event) -> Message {
    let source = e.destination;
    let destination = destination(dice, s, source);
    let above = dice.pick(&[0, 0, 0, 1, 1, 2, 5]);
    Message {
        source,
        destination,
        tick: minimum(s, e, destination).saturating_add(above),
        payload: payload(dice),
    }
}

/// One of 28 to 33, perhaps.
fn spoil(dice: &mut Dice, s: &State, e: &Event, m: &mut Message) {
    let n = s.n as u32;
    let local = s.horizons.get(m.destination as usize).copied().unwrap_or(0);
    match dice.below(8) {
        0 => m.source = any_id(dice, n),
        1 => m.destination = n.saturating_add(dice.below(2) as u32),
        2 => m.destination = dice.below(s.n) as u32,
        3 => m.tick = m.tick.saturating_sub(1 + u128::from(dice.below(3))),
        4 => m.tick = minimum(s, e, m.destination).saturating_sub(1),
        5 => m.tick = local.saturating_sub(u128::from(dice.below(2))),
        6 => m.tick = dice.pick(&[0, TOP]),
        7 if is_mixed(s) => m.tick = e.tick.saturating_add(s.lookahead),
        _ => m.tick = e.tick,
    }
}

/// A message in answer to e, faulty once in `faults` times.
pub fn message(dice: &mut Dice, s: &State, e: &Event, faults: u64) -> Message {
    let mut message = good_message(dice, s, e);
    if dice.one_in(faults) {
        spoil(dice, s, e, &mut message);
    }
    message
}

/// Makes a reply malformed, perhaps.
fn spoil_reply(dice: &mut Dice, s: &State, mask: &mut u64, emissions: &mut [Emission]) {
    let at = dice.index(emissions.len());
    match dice.below(8) {
        0 => emissions.reverse(),
        1 => *mask |= 1 << dice.below(64),
        2 => *mask = dice.pick(&[MOST, 1 << 63, 1 << s.n.min(63)]),
        3 => *mask |= s.batch.iter().fold(0, |mask, e| mask | 1 << e.destination),
        4 if !emissions.is_empty() => emissions[at].emitter = any_id(dice, s.n as u32),
        5 if !emissions.is_empty() => emissions[at].message.payload = long_payload(dice),
        6 if emissions.len() > 1 => emissions.rotate_left(1),
        _ => *mask |= s.batch.first().map_or(0, |e| 1 << e.destination),
    }
}

/// A hand back for the batch in hand.
pub fn hand_back(dice: &mut Dice, s: &State, faults: u64) -> Call {
    let mut mask = 0;
    let mut emissions = vec![];
    for e in &s.batch {
        if dice.one_in(faults * 4) {
            mask |= 1 << e.destination;
            continue;
        }
        for _ in 0..dice.pick(&[0, 0, 1, 1, 2, 3]) {
            emissions.push(Emission {
                emitter: e.destination,
                message: message(dice, s, e, faults),
            });
        }
    }
    if dice.one_in(faults * 2) {
        spoil_reply(dice, s, &mut mask, &mut emissions);
    }
    Call::HandBack { mask, emissions }
}

/// A reply just beyond what can be decoded.
pub fn reply_beyond() -> Call {
    let message = Message {
        source: 0,
        destination: 0,
        tick: 1,
        payload: Payload::default(),
    };
    let emitter = 0;
    Call::HandBack {
        mask: 0,
        emissions: vec![Emission { emitter, message }; 4097],
    }
}
