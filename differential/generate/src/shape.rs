//! What kind of scenario it is going to be.
use crate::dice::Dice;
use model::{State, MOST, TOP};

#[derive(Clone, Debug)]
pub struct Shape {
    pub n: u32,
    pub lookahead: u128,
    /// Ticks and horizons lie from here on, within the spread.
    pub low: u128,
    pub spread: u64,
    /// Of three possible edges, so many are there.
    pub dense: u64,
    /// Edges go from lower to higher ids only, so that every run ends soon.
    pub forward: bool,
    /// Whether private fields are set by hand.
    pub odd: bool,
    /// Whether edges have lookaheads of their own.
    pub mixed: bool,
    /// One in so many emissions or replies is faulty; none for 0.
    pub faults: u64,
    /// One in so many calls before the first run begins it.
    pub eager: u64,
}

/// Small numbers, so that everything collides.
fn dense(dice: &mut Dice) -> Shape {
    Shape {
        n: 1 + dice.below(4) as u32,
        lookahead: 1 + u128::from(dice.below(4)),
        low: 0,
        spread: 4 + dice.below(9),
        dense: 1 + dice.below(3),
        forward: dice.one_in(4),
        odd: dice.one_in(6),
        mixed: false,
        faults: dice.pick(&[0, 0, 6, 12, 25]),
        eager: 4,
    }
}

/// Ticks near 2^128. Bounds start low, so edges go forward or bounds are set by hand.
fn at_top(dice: &mut Dice) -> Shape {
    let odd = dice.one_in(2);
    Shape {
        low: TOP - 9 - u128::from(dice.below(5)),
        spread: 15,
        forward: !odd,
        odd,
        ..dense(dice)
    }
}

/// A lookahead of about 2^127: two of them overflow.
fn halfway(dice: &mut Dice) -> Shape {
    let half = 1u128 << 127;
    Shape {
        lookahead: half - 3 + u128::from(dice.below(6)),
        low: half - 4,
        spread: 14,
        odd: dice.one_in(3),
        ..dense(dice)
    }
}

/// A lookahead near 2^128.
fn far(dice: &mut Dice) -> Shape {
    Shape {
        lookahead: TOP - u128::from(dice.below(8)),
        odd: dice.one_in(2),
        ..dense(dice)
    }
}

fn wide(dice: &mut Dice) -> Shape {
    Shape {
        n: 5 + dice.below(6) as u32,
        dense: 1,
        ..dense(dice)
    }
}

impl Shape {
    pub fn any(dice: &mut Dice) -> Self {
        match dice.below(16) {
            0 | 1 => at_top(dice),
            2 => halfway(dice),
            3 => far(dice),
            4 => wide(dice),
            _ => dense(dice),
        }
    }

    /// One that a list of calls reaches from build.
    pub fn natural(dice: &mut Dice) -> Self {
        Self {
            odd: false,
            ..Self::any(dice)
        }
    }

    /// With lookaheads of the edges' own, for which there have to be edges, or without.
    pub fn with(self, mixed: bool) -> Self {
        if !mixed {
            return self;
        }
        let few = self.n < 5;
        Self {
            n: self.n.max(2),
            dense: if few { self.dense.max(2) } else { self.dense },
            mixed,
            ..self
        }
    }

    pub fn tick(&self, dice: &mut Dice) -> u128 {
        let above = u128::from(dice.below(self.spread));
        if dice.one_in(40) {
            return dice.pick(&[0, 1, TOP - 1, TOP]);
        }
        self.low.saturating_add(above)
    }

    /// A horizon, as a rule not below the last one.
    pub fn horizon(&self, dice: &mut Dice, s: &State) -> u128 {
        let above = u128::from(dice.below(self.spread + 3));
        let last = s.stored.map_or(0, |stored| stored.horizon);
        let any = self.low.saturating_add(above);
        match dice.below(30) {
            0 => TOP,
            1 if self.forward => TOP - 1,
            2..=5 => any,
            6..=9 => last.max(self.low),
            _ => any.max(last),
        }
    }

    pub fn budget(&self, dice: &mut Dice) -> u64 {
        dice.pick(&[0, 1, 1, 2, 3, 5, 8, 60, 60, 60, 60, MOST])
    }
}
