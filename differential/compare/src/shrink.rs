//! The smallest form of a difference: whatever can be left out while it still differs, is.
use model::{lookahead_words, Call, Emission, List, Message, Odd, Payload, Reply, Scenario, Setup};

/// Something of which parts can be left out.
pub trait Shrinks: Sized + Clone {
    /// This with one part left out or made smaller, in every way there is.
    fn smaller(&self) -> Vec<Self>;
}

/// Takes the first smaller one that still differs, as long as there is one.
pub fn shrink<T: Shrinks>(from: &T, differs: impl Fn(&T) -> bool) -> T {
    let mut smallest = from.clone();
    while let Some(next) = smallest.smaller().into_iter().find(|next| differs(next)) {
        smallest = next;
    }
    smallest
}

/// The list without its k-th element, for each k.
fn without_one<T: Clone>(list: &[T]) -> Vec<Vec<T>> {
    let without = |k| {
        let mut shorter = list.to_vec();
        shorter.remove(k);
        shorter
    };
    (0..list.len()).map(without).collect()
}

/// The list with its k-th element made smaller, for each k.
fn one_smaller<T: Shrinks>(list: &[T]) -> Vec<Vec<T>> {
    let mut all = vec![];
    for (k, element) in list.iter().enumerate() {
        for smaller in element.smaller() {
            let mut changed = list.to_vec();
            changed[k] = smaller;
            all.push(changed);
        }
    }
    all
}

/// The setup without one edge, with the lookahead and the bound that go with it.
fn without_edge(setup: &Setup, odd: &Option<Odd>) -> Vec<(Setup, Option<Odd>)> {
    let mut all = vec![];
    let mut at = 0;
    for (row, &count) in setup.counts.iter().enumerate() {
        for _ in 0..count {
            if at >= setup.destinations.len() {
                return all;
            }
            let (mut setup, mut odd) = (setup.clone(), odd.clone());
            setup.destinations.remove(at);
            setup.counts[row] -= 1;
            let end = setup.lookaheads.len();
            setup.lookaheads.drain(end.min(2 * at)..end.min(2 * at + 2));
            if let Some(odd) = odd.as_mut().filter(|odd| at < odd.bounds.len()) {
                odd.bounds.remove(at);
            }
            all.push((setup, odd));
            at += 1;
        }
    }
    all
}

/// The setup with the plan's lookahead on one edge more.
fn with_plan_lookahead(setup: &Setup) -> Vec<Setup> {
    let each = setup.edge_lookaheads();
    let well = setup.lookaheads.len() == 2 * each.len();
    let other = |at: &usize| well && each[*at] != setup.lookahead;
    let places = (0..each.len()).filter(other);
    places
        .map(|at| {
            let mut each = each.clone();
            each[at] = setup.lookahead;
            Setup {
                lookaheads: lookahead_words(each),
                ..setup.clone()
            }
        })
        .collect()
}

impl Shrinks for Message {
    fn smaller(&self) -> Vec<Self> {
        let empty = Message {
            payload: Payload::default(),
            ..*self
        };
        Vec::from_iter((empty != *self).then_some(empty))
    }
}

impl Shrinks for Emission {
    fn smaller(&self) -> Vec<Self> {
        let messages = self.message.smaller().into_iter();
        messages
            .map(|message| Emission { message, ..*self })
            .collect()
    }
}

/// The list without one element, or with one made smaller.
fn shorter<T: Shrinks>(list: &[T]) -> impl Iterator<Item = Vec<T>> {
    without_one(list).into_iter().chain(one_smaller(list))
}

impl Shrinks for Call {
    fn smaller(&self) -> Vec<Self> {
        match self {
            Call::AddInitial(message) => {
                let messages = message.smaller().into_iter();
                messages.map(Call::AddInitial).collect()
            }
            Call::HandBack { mask, emissions } => {
                let mask = *mask;
                shorter(emissions)
                    .map(|emissions| Call::HandBack { mask, emissions })
                    .collect()
            }
            Call::Plan {
                n,
                lookahead,
                lent,
                entities,
            } => without_one(entities)
                .into_iter()
                .map(|entities| Call::Plan {
                    n: *n,
                    lookahead: *lookahead,
                    lent: lent.saturating_sub(1),
                    entities,
                })
                .collect(),
            _ => vec![],
        }
    }
}

/// The setup without one of its ids.
fn without_id(setup: &Setup) -> Vec<Setup> {
    let ids = without_one(&setup.ids).into_iter();
    ids.map(|ids| Setup {
        ids,
        ..setup.clone()
    })
    .collect()
}

impl Shrinks for List {
    fn smaller(&self) -> Vec<Self> {
        let same = || self.clone();
        let calls = shorter(&self.calls).map(|calls| List { calls, ..same() });
        let edges = without_edge(&self.setup, &self.odd).into_iter();
        let edges = edges.map(|(setup, odd)| List {
            setup,
            odd,
            ..same()
        });
        let setups = without_id(&self.setup).into_iter();
        let setups = setups.chain(with_plan_lookahead(&self.setup));
        let ids = setups.map(|setup| List { setup, ..same() });
        let odd = self.odd.iter().map(|_| List {
            odd: None,
            ..same()
        });
        calls.chain(edges).chain(ids).chain(odd).collect()
    }
}

impl Shrinks for Reply {
    fn smaller(&self) -> Vec<Self> {
        match self {
            Reply::Emits(messages) => shorter(messages).map(Reply::Emits).collect(),
            Reply::Fails => vec![Reply::Emits(vec![])],
        }
    }
}

/// A process's replies.
impl Shrinks for Vec<Reply> {
    fn smaller(&self) -> Vec<Self> {
        shorter(self).collect()
    }
}

impl Shrinks for Scenario {
    fn smaller(&self) -> Vec<Self> {
        let same = || self.clone();
        let runs = without_one(&self.runs).into_iter();
        let runs = runs.map(|runs| Scenario { runs, ..same() });
        let initial = shorter(&self.initial).map(|initial| Scenario { initial, ..same() });
        let replies = one_smaller(&self.replies).into_iter();
        let replies = replies.map(|replies| Scenario { replies, ..same() });
        let edges = without_edge(&self.setup, &self.odd).into_iter();
        let edges = edges.map(|(setup, odd)| Scenario {
            setup,
            odd,
            ..same()
        });
        let odd = self.odd.iter().map(|_| Scenario {
            odd: None,
            ..same()
        });
        let plans = with_plan_lookahead(&self.setup).into_iter();
        let plans = plans.map(|setup| Scenario { setup, ..same() });
        let parts = runs.chain(initial).chain(replies);
        parts.chain(edges).chain(plans).chain(odd).collect()
    }
}

#[cfg(test)]
mod tests {
    use super::*;
    use crate::lists;
    use generate::Dice;
    use model::{Rules, Variant};

    /// The smallest list that tells the two runtimes apart has one event, and nothing else.
    #[test]
    fn a_difference_gets_small() {
        let wrong = Rules::of(Variant::EligibleAtSafe);
        let differs = |list: &List| lists::check(wrong, list, &lists::observe(list)).is_some();
        let mut lists = (0..).map(|number| generate::list(&mut Dice::new(number), false));
        let found = lists.find(|list| list.calls.len() > 10 && differs(list));
        let smallest = shrink(&found.expect("there are such lists"), differs);
        assert!(smallest.calls.len() <= 4, "{smallest:?}");
        assert!(differs(&smallest));
    }
}
