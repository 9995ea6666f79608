//! Plans.
use crate::dice::Dice;
use model::{Call, Entity, MOST};

/// docs/CALLS.md: a plan of more entities or places is taken for something that cannot be decoded.
const MOST_DECODED: u64 = 4096;

/// Few indices and generations, so that an entity stands twice now and then.
fn small(dice: &mut Dice) -> Vec<Entity> {
    let count = dice.below(9);
    let indices = dice.pick(&[3, 9, 30]);
    let entity = |dice: &mut Dice| Entity {
        index: dice.below(indices),
        generation: dice.below(4),
    };
    (0..count).map(|_| entity(dice)).collect()
}

/// About as many as there may be.
fn many(dice: &mut Dice) -> Vec<Entity> {
    let count = dice.pick(&[1023, 1024, 1024, 1025]);
    let mut entities: Vec<Entity> = (0..count)
        .map(|i| Entity {
            index: MOST - i / 3,
            generation: u64::from(u32::MAX) - i % 3,
        })
        .collect();
    dice.shuffle(&mut entities);
    if dice.one_in(4) {
        entities[7] = entities[500];
    }
    entities
}

fn over(dice: &mut Dice, entities: Vec<Entity>) -> Call {
    let count = entities.len() as u64;
    Call::Plan {
        n: dice.pick(&[1, 2, 2, 3, 3, 7, 63, 64, 65, 0, 1 << 32, MOST]),
        lookahead: dice.pick(&[1, 1, 1, 5, u128::MAX, 0]),
        lent: dice.pick(&[count, count, count + 1, count + 3, count.saturating_sub(1)]),
        entities,
    }
}

/// A plan of a few entities.
pub fn small_plan(dice: &mut Dice) -> Call {
    let entities = small(dice);
    over(dice, entities)
}

/// A plan, of many entities once in 300 times.
pub fn plan(dice: &mut Dice) -> Call {
    if dice.one_in(300) {
        let entities = many(dice);
        return over(dice, entities);
    }
    small_plan(dice)
}

/// A plan of many entities, good but for their number.
pub fn large_plan(dice: &mut Dice) -> Call {
    let entities = many(dice);
    Call::Plan {
        n: 64,
        lookahead: 1,
        lent: entities.len() as u64,
        entities,
    }
}

/// Some dozens, with few indices or few generations.
fn middling(dice: &mut Dice) -> Vec<Entity> {
    let count = dice.below(200);
    let indices = dice.pick(&[3, 40, 1_000, MOST]);
    let generations = dice.pick(&[1, 4, 40, 1 << 32]);
    let entity = |dice: &mut Dice| Entity {
        index: dice.below(indices),
        generation: dice.below(generations),
    };
    (0..count).map(|_| entity(dice)).collect()
}

/// More than there may be, up to the most that can be decoded.
fn too_many(dice: &mut Dice) -> Vec<Entity> {
    let count = dice.pick(&[1025, 1026, 2048, 4095, 4096]);
    let entity = |index: u64| Entity {
        index,
        generation: 0,
    };
    (0..count).map(entity).collect()
}

/// A plan for our program: of any number of entities, and with a list of any length.
pub fn any_plan(dice: &mut Dice) -> Call {
    let entities = match dice.below(100) {
        0 => many(dice),
        1 if dice.one_in(4) => too_many(dice),
        2..=12 => middling(dice),
        _ => small(dice),
    };
    let Call::Plan {
        n,
        lookahead,
        lent,
        entities,
    } = over(dice, entities)
    else {
        unreachable!("over makes a plan")
    };
    let lent = match dice.below(12) {
        0 => dice.below(300),
        _ => lent.min(MOST_DECODED),
    };
    Call::Plan {
        n,
        lookahead,
        lent,
        entities,
    }
}

/// A good plan but for these two numbers, its entities in falling order.
pub fn plan_of(count: u64, lent: u64) -> Call {
    let entity = |index: u64| Entity {
        index,
        generation: index % 2,
    };
    Call::Plan {
        n: 64,
        lookahead: 1,
        lent,
        entities: (0..count).rev().map(entity).collect(),
    }
}

/// Plans at the edges: 1,024 entities and one more, lists with no place to spare and with one too
/// few, and the most that can be decoded.
pub fn edge_plans() -> Vec<Call> {
    let accepted = [(1024, 1024), (1024, 1023), (1024, 1030), (1025, 1025)];
    let decoded = [(MOST_DECODED, 3), (1, MOST_DECODED)];
    let edges = accepted.into_iter().chain(decoded);
    edges.map(|(count, lent)| plan_of(count, lent)).collect()
}

/// Plans just beyond what can be decoded.
pub fn plans_beyond() -> [Call; 2] {
    [plan_of(MOST_DECODED + 1, 1), plan_of(1, MOST_DECODED + 1)]
}
