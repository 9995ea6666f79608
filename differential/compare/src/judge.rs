//! Who judges. "Equality with the Rust covers runtimes whose edges all carry the plan's lookahead; elsewhere the
//! rules so amended hold" (A.4 of document 02): there the model alone says what is right.
use model::{List, Odd, Scenario, Setup};

#[derive(Clone, Copy, Debug, Eq, PartialEq)]
pub enum Judge {
    Rust,
    Model,
}

/// Whether an edge's lookahead is set to 0 by hand.
fn zero(odd: &Option<Odd>) -> bool {
    odd.as_ref().is_some_and(|odd| odd.lookahead.is_some())
}

fn of(setup: &Setup, odd: &Option<Odd>) -> Judge {
    match setup.is_uniform() && !zero(odd) {
        true => Judge::Rust,
        false => Judge::Model,
    }
}

impl Judge {
    pub fn of_list(list: &List) -> Self {
        of(&list.setup, &list.odd)
    }

    pub fn of_scenario(scenario: &Scenario) -> Self {
        of(&scenario.setup, &scenario.odd)
    }
}

/// The lookahead that every edge carries, if that is one, not 0 and not the plan's. A run reads no other, so the
/// original with this one for the plan's has to do the same; so has a build that the plan's lets pass.
pub fn carried(setup: &Setup, odd: &Option<Odd>) -> Option<u128> {
    let each = setup.edge_lookaheads();
    let first = *each.first()?;
    let words = setup.lookaheads.len() == 2 * each.len();
    let one = each.iter().all(|lookahead| *lookahead == first);
    let other = first != setup.lookahead && first != 0 && setup.lookahead != 0;
    (words && one && other && !zero(odd)).then_some(first)
}

/// The setup with this lookahead for the plan's and for every edge's.
pub fn carrying(setup: &Setup, lookahead: u128) -> Setup {
    let setup = Setup {
        lookahead,
        ..setup.clone()
    };
    setup.made_uniform()
}
