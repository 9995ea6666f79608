//! Lookaheads of the edges (A.4 of document 02): the plan's on every edge, or different ones.
use crate::dice::Dice;
use crate::shape::Shape;
use model::{lookahead_words, Setup, TOP};

/// A lookahead of an edge alone. A small one on a cycle makes as many rounds as it goes into the horizon: where
/// ticks are large it needs a graph without cycles, or bounds set by hand.
fn one(dice: &mut Dice, shape: &Shape) -> u128 {
    let small = shape.forward || shape.odd || shape.low == 0;
    match dice.below(10) {
        0..=4 if small => 1 + u128::from(dice.below(5)),
        0..=4 => shape.lookahead - u128::from(dice.below(3)).min(shape.lookahead - 1),
        5 => shape.lookahead,
        6 => shape
            .lookahead
            .saturating_add(1 + u128::from(dice.below(3))),
        7 => {
            let above = 1 + u128::from(dice.below(shape.spread + 3));
            shape.low.saturating_add(above)
        }
        8 if small => dice.pick(&[(1 << 64) - 1, 1 << 64, (1 << 64) + 1, 1 << 127]),
        8 => dice.pick(&[(1 << 127) - 1, 1 << 127, (1 << 127) + 1]),
        _ => TOP - u128::from(dice.below(8)),
    }
}

/// Different ones: each edge its own; one for all edges, as a rule another than the plan's; or all edges slow
/// but for one or two fast ones, so that fast and slow edges lead into one process, and fast cycles through
/// slow graphs.
fn different(dice: &mut Dice, shape: &Shape, edges: usize) -> Vec<u128> {
    match dice.below(8) {
        0 => vec![one(dice, shape); edges],
        1 if shape.low == 0 && edges > 0 => {
            let slow = 6 + u128::from(dice.below(30));
            let mut all = vec![slow; edges];
            for _ in 0..2 {
                all[dice.index(edges)] = 1 + u128::from(dice.below(2));
            }
            all
        }
        _ => (0..edges).map(|_| one(dice, shape)).collect(),
    }
}

/// The setup with a lookahead for each of its edges.
pub fn with_lookaheads(dice: &mut Dice, shape: &Shape, mut setup: Setup) -> Setup {
    if !shape.mixed {
        return setup.made_uniform();
    }
    setup.lookaheads = lookahead_words(different(dice, shape, setup.destinations.len()));
    setup
}

/// The first edge that 8, 9 or 10 refuses.
fn refused_edge(setup: &Setup) -> Option<usize> {
    let mut before = 0;
    for (source, row) in setup.rows() {
        let refused = |(at, d): (usize, &u32)| {
            u64::from(*d) >= setup.n || *d == source || row[..at].contains(d)
        };
        if let Some(at) = row.iter().enumerate().position(refused) {
            return Some(before + at);
        }
        before += row.len();
    }
    None
}

fn zero(setup: &mut Setup, at: usize) {
    setup.lookaheads[2 * at..2 * at + 2].fill(0);
}

/// 40, at any edge or at one that is refused for another reason; and words too many or too few, which 5 refuses.
pub fn spoil_lookaheads(dice: &mut Dice, setup: &mut Setup) {
    let edges = setup.lookaheads.len() / 2;
    let any = dice.index(edges);
    match dice.below(8) {
        0 | 1 if edges > 0 => {
            zero(setup, any);
            zero(setup, dice.index(edges));
        }
        2 | 3 if edges > 0 => {
            let at = refused_edge(setup).unwrap_or(any);
            zero(setup, at);
        }
        4 => setup.lookaheads.fill(0),
        5 => {
            let less = 1 + dice.index(2);
            let count = setup.lookaheads.len().saturating_sub(less);
            setup.lookaheads.truncate(count);
        }
        6 => setup
            .lookaheads
            .extend([7, 3].iter().take(1 + dice.index(2))),
        _ => {}
    }
}

/// A build with this many lookahead words and no destination: 5.
pub fn lookaheads_alone(words: usize) -> Setup {
    Setup {
        n: 1,
        lookahead: 1,
        ids: vec![0],
        sources: vec![0],
        counts: vec![0],
        destinations: vec![],
        lookaheads: vec![1; words],
    }
}
