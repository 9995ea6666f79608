//! `from_entities` against plan, owners included.
use crate::difference::{Check, Comparison, Difference, Kind};
use model::{Answer, Call, Rules};
use oracle::Planned;

/// What the original does with a plan. None if the call is another.
pub fn observe(call: &Call) -> Option<Planned> {
    match call {
        Call::Plan {
            n,
            lookahead,
            lent,
            entities,
        } => Some(oracle::plan(*n, *lookahead, entities, *lent)),
        _ => None,
    }
}

pub fn check(rules: Rules, call: &Call, planned: &Planned) -> Option<Difference> {
    let Call::Plan {
        n,
        lookahead,
        lent,
        entities,
    } = call
    else {
        return None;
    };
    let check = Check {
        comparison: Comparison::Plan,
        at: 1,
    };
    let laid = rules.plan(*n, *lookahead, entities, *lent);
    let count = match laid.answer {
        Answer::Planned(count) => count,
        _ => 0,
    };
    let owners = (0..count).map(|i| rules.owner(*n, i)).collect();
    check
        .same(Kind::Answer, &planned.laid.answer, &laid.answer)
        .or_else(|| check.same(Kind::PlanList, &planned.laid.list, &laid.list))
        .or_else(|| check.same(Kind::Owners, &planned.owners, &owners))
}

/// The first difference from the rules as they are.
pub fn difference(call: &Call) -> Option<Difference> {
    check(Rules::RIGHT, call, &observe(call)?)
}
