//! Build arguments, good ones and others.
use crate::dice::Dice;
use crate::lookaheads::{spoil_lookaheads, with_lookaheads};
use crate::shape::Shape;
use model::{Setup, MOST};

/// A setup that build accepts.
pub fn good_setup(dice: &mut Dice, shape: &Shape) -> Setup {
    let mut setup = Setup {
        n: u64::from(shape.n),
        lookahead: shape.lookahead,
        ids: (0..shape.n).collect(),
        sources: (0..shape.n).collect(),
        counts: vec![],
        destinations: vec![],
        lookaheads: vec![],
    };
    for source in 0..shape.n {
        let reachable = |d: &u32| *d != source && (*d > source || !shape.forward);
        let mut row: Vec<u32> = (0..shape.n).filter(reachable).collect();
        row.retain(|_| dice.below(3) < shape.dense);
        dice.shuffle(&mut row);
        setup.counts.push(row.len() as u64);
        setup.destinations.extend(row);
    }
    with_lookaheads(dice, shape, setup)
}

/// An id that is perhaps not one of the processes.
pub fn any_id(dice: &mut Dice, n: u32) -> u32 {
    match dice.below(8) {
        0 => n.saturating_add(dice.below(3) as u32),
        1 => dice.pick(&[63, 64, u32::MAX - 1, u32::MAX]),
        _ => dice.below(u64::from(n)) as u32,
    }
}

fn spoil_ids(dice: &mut Dice, setup: &mut Setup) {
    let n = setup.ids.len() as u32;
    let at = dice.index(setup.ids.len());
    match dice.below(5) {
        0 if !setup.ids.is_empty() => drop(setup.ids.remove(at)),
        1 => setup.ids.push(n.saturating_add(dice.below(3) as u32)),
        2 => setup.ids.push(u32::MAX),
        3 => setup.ids.insert(at, any_id(dice, n)),
        _ => setup.ids.reverse(),
    }
}

fn spoil_rows(dice: &mut Dice, setup: &mut Setup) {
    let at = dice.index(setup.sources.len());
    match dice.below(4) {
        0 if !setup.sources.is_empty() => {
            setup.sources.remove(at);
            let count = setup.counts.remove(at) as usize;
            let keep = setup.destinations.len().saturating_sub(count);
            setup.destinations.truncate(keep);
        }
        1 => {
            setup.sources.push(any_id(dice, setup.n as u32));
            setup.counts.push(0);
        }
        2 => setup.sources.reverse(),
        _ => {
            setup.sources.push(dice.pick(&[64, 65, u32::MAX]));
            setup.counts.push(1);
            setup.destinations.push(0);
        }
    }
}

/// Counts that do not use up the list, among them two whose sum passes 2^64 and falls on it.
fn spoil_counts(dice: &mut Dice, setup: &mut Setup) {
    let at = dice.index(setup.counts.len());
    let wrapping = MOST.wrapping_sub(setup.counts.iter().sum::<u64>());
    let Some(count) = setup.counts.get_mut(at) else {
        return;
    };
    match dice.below(4) {
        0 => *count += 1,
        1 => *count = count.saturating_sub(1),
        2 => *count = dice.pick(&[MOST, 1 << 63]),
        _ => {
            *count += wrapping;
            let other = dice.index(setup.counts.len());
            setup.counts[other] = setup.counts[other].saturating_add(1);
        }
    }
}

fn spoil_destinations(dice: &mut Dice, setup: &mut Setup) {
    let row = dice.index(setup.counts.len());
    if setup.counts.is_empty() || setup.sources.len() != setup.counts.len() {
        return;
    }
    let behind: u64 = setup.counts[..row].iter().sum();
    let source = setup.sources[row];
    let place = behind + dice.below(setup.counts[row] + 1);
    let place = (place as usize).min(setup.destinations.len());
    let destination = match dice.below(3) {
        0 => source,
        1 => setup.n.min(70) as u32 + dice.below(2) as u32,
        _ => any_id(dice, setup.n as u32),
    };
    setup.destinations.insert(place, destination);
    setup.counts[row] += 1;
}

/// A good setup, spoilt in up to three places, and in its lookaheads if these are different.
pub fn any_setup(dice: &mut Dice, mixed: bool) -> Setup {
    let shape = Shape::any(dice).with(mixed);
    let mut setup = good_setup(dice, &shape);
    for _ in 0..dice.below(4) {
        match dice.below(12) {
            0 => setup.n = dice.pick(&[0, 1, 2, 63, 64, 65, 1 << 32, MOST]),
            1 => setup.lookahead = 0,
            2 | 3 => spoil_ids(dice, &mut setup),
            4..=6 => spoil_rows(dice, &mut setup),
            7 if setup.counts.iter().all(|&count| count < 600) => spoil_counts(dice, &mut setup),
            _ if setup.counts.iter().all(|&count| count < 600) => {
                spoil_destinations(dice, &mut setup)
            }
            _ => {}
        }
    }
    let mut setup = with_lookaheads(dice, &shape, setup);
    if mixed {
        spoil_lookaheads(dice, &mut setup);
    }
    setup
}
