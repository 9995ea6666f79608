//! What holds of every list from build, whoever judges it: demand 3's limits on rounds and null messages, A.4's
//! least edge lookahead in them, and that neither 11 nor 33 is answered.
use crate::difference::{Comparison, Difference, Kind};
use crate::lists::Observed;
use model::{Answer, Call, Counters, List, Refusal, Scenario, Setup, Task};
use oracle::Whole;

/// Which lookahead stands for L.
#[derive(Clone, Copy, Debug, Eq, PartialEq)]
pub enum Reading {
    /// "the least edge lookahead, or the plan's if there is no edge"
    Least,
    Greatest,
    Plan,
}

/// The wrong ones, in words.
pub const WRONG: [(Reading, &str); 2] = [
    (
        Reading::Greatest,
        "the limits have the greatest edge lookahead",
    ),
    (Reading::Plan, "the limits have the plan's lookahead"),
];

impl Reading {
    fn lookahead(self, setup: &Setup) -> u128 {
        let greatest = setup.edge_lookaheads().into_iter().max();
        match self {
            Reading::Least => setup.least_lookahead(),
            Reading::Greatest => greatest.unwrap_or(setup.lookahead),
            Reading::Plan => setup.lookahead,
        }
    }
}

/// What the limits speak of: the begins not refused, and the horizon of the last of them. Without any, nothing
/// is counted, and so nothing is above a limit.
#[derive(Default)]
struct Begun {
    runs: u128,
    horizon: u128,
}

impl Begun {
    fn add(&mut self, horizon: u128) {
        self.runs += 1;
        self.horizon = horizon;
    }

    /// Null messages: at most E * (floor(H / L) + R). Rounds: at most handled + floor(H / L) + 2 * R.
    fn broken(&self, setup: &Setup, c: &Counters, reading: Reading) -> Option<Difference> {
        let exclusive = self.horizon.saturating_add(1);
        let whole = exclusive / reading.lookahead(setup);
        let edges = setup.destinations.len() as u128;
        let nulls = edges.saturating_mul(whole.saturating_add(self.runs));
        let rounds = whole
            .saturating_add(2 * self.runs)
            .saturating_add(c.handled.into());
        let over = u128::from(c.null_messages) > nulls || u128::from(c.rounds) > rounds;
        over.then(|| Difference {
            comparison: Comparison::Limits,
            kind: Kind::Counters,
            at: 0,
            rust: format!("rounds {}, null messages {}", c.rounds, c.null_messages),
            rules: format!("at most {rounds} and {nulls}"),
        })
    }
}

/// Refusals that no list from build meets.
fn unmet(answers: &[&Answer]) -> Option<Difference> {
    use Refusal::{ForeignState, Straggler};
    let met = |a: &&Answer| matches!(a, Answer::Refused(ForeignState | Straggler(..)));
    let at = answers.iter().position(met)?;
    Some(Difference {
        comparison: Comparison::Limits,
        kind: Kind::Answer,
        at: at + 1,
        rust: format!("{:?}", answers[at]),
        rules: "neither 11 nor 33 from build".to_string(),
    })
}

/// Of a list from build.
pub fn of_list(list: &List, observed: &Observed, reading: Reading) -> Option<Difference> {
    let (None, Some(last)) = (&list.odd, observed.calls.last()) else {
        return None;
    };
    let mut begun = Begun::default();
    for (call, seen) in list.calls.iter().zip(&observed.calls) {
        if let (Call::Begin { horizon, .. }, Answer::Accepted) = (call, &seen.answer) {
            begun.add(*horizon);
        }
    }
    let answers: Vec<&Answer> = observed.calls.iter().map(|seen| &seen.answer).collect();
    let broken = begun.broken(&list.setup, &last.counters, reading);
    broken.or_else(|| unmet(&answers))
}

/// Of whole runs from build. A run that 12, 21 or 22 refuses was not begun.
pub fn of_scenario(scenario: &Scenario, whole: &Whole, reading: Reading) -> Option<Difference> {
    use Refusal::{HorizonOverflow, HorizonRegression, Poisoned};
    let (None, Some(last)) = (&scenario.odd, whole.ran.last()) else {
        return None;
    };
    let mut begun = Begun::default();
    for (task, ran) in scenario.tasks().iter().zip(&whole.ran) {
        let refused = matches!(
            ran.answer,
            Answer::Refused(Poisoned | HorizonRegression(..) | HorizonOverflow(_))
        );
        if let (Task::Run { horizon, .. }, false) = (task, refused) {
            begun.add(*horizon);
        }
    }
    let answers: Vec<&Answer> = whole.ran.iter().map(|ran| &ran.answer).collect();
    let broken = begun.broken(&scenario.setup, &last.counters, reading);
    broken.or_else(|| unmet(&answers))
}
