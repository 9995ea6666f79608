//! Whole runs: `run_until_with_budget` against begin, step and hand back. Scenarios whose edges have different
//! lookaheads are carried out by the model.
use crate::difference::{Check, Comparison, Difference, Kind};
use crate::judge::{carried, carrying, Judge};
use crate::tally::Tally;
use model::{Answer, Call, Event, Host, Refusal, Reply, Rules, Scenario, State, Stored, Task};
use oracle::{run_whole, Origin, Ran, Whole};

/// A run that takes these rules more calls does not end.
const MOST_CALLS: usize = 3_000;

/// Of a state, what the original keeps between runs.
fn kept(state: &State) -> State {
    State {
        used: 0,
        batch: vec![],
        running: false,
        stored: state.stored.map(|stored| Stored {
            budget: 0,
            ..stored
        }),
        ..state.clone()
    }
}

/// The reply to a process's event: the k-th of its list to its k-th event, later ones are empty.
fn scripted(scenario: &Scenario, host: &Host, event: &Event) -> Reply {
    let p = event.destination as usize;
    let so_far = host.handled.get(p).map_or(0, Vec::len);
    let reply = scenario.replies.get(p).and_then(|list| list.get(so_far));
    reply.cloned().unwrap_or(Reply::Emits(vec![]))
}

/// A task, carried out by these rules. None if it does not end.
fn carry_out(host: &mut Host, scenario: &Scenario, task: &Task) -> Option<Answer> {
    let mut reply = |host: &Host, event: &Event| scripted(scenario, host, event);
    match *task {
        Task::AddInitial(message) => Some(host.call(&Call::AddInitial(message))),
        Task::Run { horizon, budget } => host.run(horizon, budget, MOST_CALLS, &mut reply),
    }
}

/// Whether the original can be asked: all runs end, and nothing is refused with what it does not have.
pub fn comparable(scenario: &Scenario) -> bool {
    let Ok(mut host) = start(Rules::RIGHT, scenario) else {
        return true;
    };
    let tasks = scenario.tasks();
    let mut answers = tasks.iter().map(|t| carry_out(&mut host, scenario, t));
    answers.all(|answer| answer.is_some_and(|a| !only_in_rules(&a)))
}

/// What the judge does with a scenario: the original, or the model.
pub fn observe(scenario: &Scenario) -> Whole {
    match Judge::of_scenario(scenario) {
        Judge::Rust => by_rust(scenario),
        Judge::Model => by_model(scenario, &scenario.tasks()),
    }
}

fn by_rust(scenario: &Scenario) -> Whole {
    let Scenario {
        setup,
        odd,
        replies,
        ..
    } = scenario;
    run_whole(setup, odd.as_ref(), replies, &scenario.tasks())
}

/// What the model does with these tasks of a scenario.
pub fn by_model(scenario: &Scenario, tasks: &[Task]) -> Whole {
    let seen = |host: &Host, answer| Ran {
        answer,
        counters: host.counters,
        state: host.state.clone(),
        history: host.history.clone(),
        handled: host.handled.clone(),
    };
    let mut host = match start(Rules::RIGHT, scenario) {
        Ok(host) => host,
        Err(Answer::Refused(refusal)) => {
            return Whole {
                built: Err((refusal, Origin::Rules)),
                ran: vec![],
            }
        }
        Err(other) => panic!("build answers {other:?}"),
    };
    let built = Ok(seen(&host, Answer::Accepted));
    let mut ran = vec![];
    for task in tasks {
        let answer = carry_out(&mut host, scenario, task);
        ran.extend(answer.map(|answer| seen(&host, answer)));
    }
    Whole { built, ran }
}

/// A scenario whose edges all carry one lookahead other than the plan's, on the original with this one for
/// the plan's. What it shows of the plan's lookahead is the scenario's own again.
pub fn observe_carried(scenario: &Scenario) -> Option<Whole> {
    let lookahead = carried(&scenario.setup, &scenario.odd)?;
    let mut whole = by_rust(&Scenario {
        setup: carrying(&scenario.setup, lookahead),
        ..scenario.clone()
    });
    let built = whole.built.iter_mut();
    for ran in built.chain(&mut whole.ran) {
        ran.state.lookahead = scenario.setup.lookahead;
    }
    Some(whole)
}

fn start(rules: Rules, scenario: &Scenario) -> Result<Host, Answer> {
    let mut host = Host::build(rules, &scenario.setup)?;
    if let Some(odd) = &scenario.odd {
        host.set(odd);
    }
    Ok(host)
}

/// Counts a scenario and its answers.
pub fn count(judge: Judge, whole: &Whole, tally: &mut Tally) {
    tally.list(judge);
    if let Err((refusal, origin)) = &whole.built {
        tally.answer(judge, &Answer::Refused(*refusal), *origin);
    }
    for ran in &whole.ran {
        tally.answer(judge, &ran.answer, Origin::Rust);
    }
}

/// After the build or a task.
fn check_ran(check: &Check, host: &Host, rust: &Ran, answer: &Answer) -> Option<Difference> {
    check
        .same(Kind::Answer, &rust.answer, answer)
        .or_else(|| check.counters(&rust.counters, &host.counters))
        .or_else(|| check.state(&kept(&rust.state), &kept(&host.state)))
        .or_else(|| check.same(Kind::GvtHistory, &rust.history, &host.history))
        .or_else(|| check.same(Kind::Handled, &rust.handled, &host.handled))
}

/// The original has no 17 and no 18.
pub fn only_in_rules(answer: &Answer) -> bool {
    use Refusal::{PayloadTooLong, QueueFull};
    matches!(answer, Answer::Refused(PayloadTooLong(_) | QueueFull))
}

/// The first difference between what the original did and what these rules do.
pub fn check(rules: Rules, scenario: &Scenario, whole: &Whole) -> Option<Difference> {
    let mut check = Check {
        comparison: Comparison::WholeRun,
        at: 0,
    };
    let (mut host, built) = match (start(rules, scenario), &whole.built) {
        (Ok(host), Ok(built)) => (host, built),
        (made, built) => {
            let rules = made.map_or_else(|answer| answer, |_| Answer::Accepted);
            let refused = |(r, _): &(Refusal, Origin)| Answer::Refused(*r);
            let rust = built
                .as_ref()
                .map_or_else(refused, |seen| seen.answer.clone());
            return check.same(Kind::BuildResult, &rust, &rules);
        }
    };
    let mut found = check_ran(&check, &host, built, &Answer::Accepted);
    for (task, rust) in scenario.tasks().iter().zip(&whole.ran) {
        if found.is_some() {
            return found;
        }
        check.at += 1;
        let Some(answer) = carry_out(&mut host, scenario, task) else {
            return check.same(Kind::Ending, &"ends", &"does not end");
        };
        found = check_ran(&check, &host, rust, &answer);
    }
    found
}

/// The first difference from the rules as they are.
pub fn difference(scenario: &Scenario) -> Option<Difference> {
    if !comparable(scenario) {
        return None;
    }
    check(Rules::RIGHT, scenario, &observe(scenario))
}

/// The same of the original with the lookahead that all edges carry.
pub fn carried_difference(scenario: &Scenario) -> Option<Difference> {
    if !comparable(scenario) {
        return None;
    }
    check(Rules::RIGHT, scenario, &observe_carried(scenario)?)
}
