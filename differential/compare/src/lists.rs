//! Call by call: the original's private functions against the rules, everything compared after each
//! call. A list without calls compares `new` with build. Lists whose edges have different lookaheads are
//! carried out by the model.
use crate::difference::{Check, Comparison, Difference, Kind};
use crate::judge::{carried, carrying, Judge};
use crate::tally::Tally;
use model::{Answer, Call, Counters, Entity, Host, List, Message, Rules, State};
use oracle::{Oracle, Origin};

/// What is seen after a call.
#[derive(Clone, Debug)]
pub struct Seen {
    pub answer: Answer,
    pub origin: Origin,
    pub counters: Counters,
    pub state: State,
    /// The lent list, after a plan.
    pub list: Option<Vec<Entity>>,
}

/// What the judge does with a list.
#[derive(Clone, Debug)]
pub struct Observed {
    pub judge: Judge,
    /// After the build, then after each call. A refused build is alone.
    pub built: Result<Seen, (Answer, Origin)>,
    pub calls: Vec<Seen>,
    pub history: Vec<u128>,
    pub handled: Vec<Vec<Message>>,
}

fn seen(oracle: &Oracle, answer: Answer, origin: Origin, list: Option<Vec<Entity>>) -> Seen {
    Seen {
        answer,
        origin,
        counters: oracle.counters(),
        state: oracle.state(),
        list,
    }
}

fn call(oracle: &mut Oracle, call: &Call) -> Seen {
    let list = match call {
        Call::Plan {
            n,
            lookahead,
            lent,
            entities,
        } => Some(oracle::plan(*n, *lookahead, entities, *lent).laid.list),
        _ => None,
    };
    let (answer, origin) = oracle.call(call);
    seen(oracle, answer, origin, list)
}

fn refused(judge: Judge, by: (Answer, Origin)) -> Observed {
    Observed {
        judge,
        built: Err(by),
        calls: vec![],
        history: vec![],
        handled: vec![],
    }
}

/// Carries a list out: on the original, or by the model.
pub fn observe(list: &List) -> Observed {
    match Judge::of_list(list) {
        Judge::Rust => by_rust(list),
        Judge::Model => by_model(list),
    }
}

/// A list whose edges all carry one lookahead other than the plan's, on the original with this one for the
/// plan's. What it shows of the plan's lookahead is the list's own again.
pub fn observe_carried(list: &List) -> Option<Observed> {
    let lookahead = carried(&list.setup, &list.odd)?;
    let mut observed = by_rust(&List {
        setup: carrying(&list.setup, lookahead),
        ..list.clone()
    });
    let built = observed.built.iter_mut();
    for seen in built.chain(&mut observed.calls) {
        seen.state.lookahead = list.setup.lookahead;
    }
    Some(observed)
}

fn by_model(list: &List) -> Observed {
    let by = Origin::Rules;
    let mut host = match Host::build(Rules::RIGHT, &list.setup) {
        Ok(host) => host,
        Err(answer) => return refused(Judge::Model, (answer, by)),
    };
    if let Some(odd) = &list.odd {
        host.set(odd);
    }
    let seen = |host: &Host, answer, list| Seen {
        answer,
        origin: by,
        counters: host.counters,
        state: host.state.clone(),
        list,
    };
    let built = Ok(seen(&host, Answer::Accepted, None));
    let mut calls = vec![];
    for call in &list.calls {
        let answer = host.call(call);
        calls.push(seen(&host, answer, plan_list(Rules::RIGHT, call)));
    }
    Observed {
        judge: Judge::Model,
        built,
        calls,
        history: host.history,
        handled: host.handled,
    }
}

fn by_rust(list: &List) -> Observed {
    let mut oracle = match Oracle::build(&list.setup) {
        Ok(oracle) => oracle,
        Err(by) => return refused(Judge::Rust, by),
    };
    if let Some(odd) = &list.odd {
        oracle.set(odd);
    }
    let built = seen(&oracle, Answer::Accepted, Origin::Rust, None);
    let calls = list.calls.iter().map(|c| call(&mut oracle, c)).collect();
    Observed {
        judge: Judge::Rust,
        built: Ok(built),
        calls,
        history: oracle.history(),
        handled: oracle.handled(),
    }
}

/// Counts a list and its answers.
pub fn count(observed: &Observed, tally: &mut Tally) {
    let judge = observed.judge;
    tally.list(judge);
    match &observed.built {
        Err((answer, origin)) => tally.answer(judge, answer, *origin),
        Ok(seen) => tally.answer(judge, &seen.answer, seen.origin),
    }
    for seen in &observed.calls {
        tally.answer(judge, &seen.answer, seen.origin);
    }
}

/// The lent list after a plan, by these rules.
fn plan_list(rules: Rules, call: &Call) -> Option<Vec<Entity>> {
    match call {
        Call::Plan {
            n,
            lookahead,
            lent,
            entities,
        } => Some(rules.plan(*n, *lookahead, entities, *lent).list),
        _ => None,
    }
}

/// One call: answer, counters and state.
fn check_call(check: &Check, host: &mut Host, made: &Call, rust: &Seen) -> Option<Difference> {
    let answer = host.call(made);
    let rules_list = plan_list(host.rules, made);
    check
        .same(Kind::Answer, &rust.answer, &answer)
        .or_else(|| check.counters(&rust.counters, &host.counters))
        .or_else(|| check.state(&rust.state, &host.state))
        .or_else(|| check.same(Kind::PlanList, &rust.list, &rules_list))
}

fn check_built(check: &Check, host: &Host, rust: &Seen) -> Option<Difference> {
    check
        .counters(&rust.counters, &host.counters)
        .or_else(|| check.state(&rust.state, &host.state))
}

/// The first difference between what the original did and what these rules do.
pub fn check(rules: Rules, list: &List, observed: &Observed) -> Option<Difference> {
    let mut check = Check {
        comparison: Comparison::CallByCall,
        at: 0,
    };
    if list.calls.is_empty() {
        check.comparison = Comparison::Build;
    }
    let mut host = match (Host::build(rules, &list.setup), &observed.built) {
        (Ok(host), Ok(_)) => host,
        (made, built) => {
            let rules = made.map_or_else(|answer| answer, |_| Answer::Accepted);
            let rust = built.as_ref().map_or_else(|(a, _)| a, |seen| &seen.answer);
            return check.same(Kind::BuildResult, rust, &rules);
        }
    };
    if let Some(odd) = &list.odd {
        host.set(odd);
    }
    let built = observed.built.as_ref().ok()?;
    let mut found = check_built(&check, &host, built);
    for (made, rust) in list.calls.iter().zip(&observed.calls) {
        check.at += 1;
        found = found.or_else(|| check_call(&check, &mut host, made, rust));
    }
    found
        .or_else(|| check.same(Kind::GvtHistory, &observed.history, &host.history))
        .or_else(|| check.same(Kind::Handled, &observed.handled, &host.handled))
}

/// The first difference from the rules as they are.
pub fn difference(list: &List) -> Option<Difference> {
    check(Rules::RIGHT, list, &observe(list))
}

/// The same of the original with the lookahead that all edges carry.
pub fn carried_difference(list: &List) -> Option<Difference> {
    check(Rules::RIGHT, list, &observe_carried(list)?)
}
