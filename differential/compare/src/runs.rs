//! Our programs against the original's own loop: `new`, `schedule_initial` and `run_until_with_budget`
//! as they are, with handlers that answer from replies fixed beforehand; ours driven by a host that
//! answers batches from the same replies.
//!
//! A program is given a file of many lists of calls. The model writes the calls down that the host is
//! going to make; then the host is run over the lines that the program printed, and has to make just
//! these calls. So what is compared comes from our program and from the original: the model decides
//! no answer, and a call that it did not foresee is a difference. Where edges have different lookaheads the
//! model stands in for the original, and every line has to be the model's.
use crate::host::{parts, Host, Shown, PARTS};
use crate::judge::Judge;
use crate::program::shown as cut;
use crate::wholes::{by_model, only_in_rules};
use crate::work::{dice, every_other};
use model::{Answer, Call, List, Message, Reply, Rules, Scenario, Task};
use oracle::{run_whole, Origin, Ran, Whole};
use words::Line;

/// A run that takes more calls is left out, and what stands behind it.
const MOST_CALLS: usize = 3_000;

/// A scenario as far as it is compared.
pub struct Planned {
    pub replies: Vec<Vec<Reply>>,
    pub tasks: Vec<Task>,
    /// The calls that the host is going to make, and the model's lines for them.
    pub list: List,
    pub lines: Vec<String>,
    /// Whether something was left out: a task that document 01 alone refuses (17, 18), a long run.
    pub cut: bool,
}

/// The scenario up to the first task that the original cannot be compared in.
pub fn planned(scenario: &Scenario) -> Planned {
    let Scenario { setup, replies, .. } = scenario;
    let mut planned = Planned {
        replies: replies.clone(),
        tasks: vec![],
        list: List {
            setup: setup.clone(),
            odd: None,
            calls: vec![],
        },
        lines: vec![],
        cut: false,
    };
    let mut model = match model::Host::build(Rules::RIGHT, setup) {
        Ok(model) => model,
        Err(refused) => {
            planned.lines = vec![words::refused_build_line(&refused)];
            return planned;
        }
    };
    planned.lines = vec![words::built_line(&model.counters, &model.state)];
    let mut host = Host::new(setup.n, replies);
    for task in scenario.tasks() {
        let (mut calls, mut lines) = (vec![], vec![]);
        let done = host.carry_out(&task, |call| {
            let answer = model.call(&call);
            let line = words::line(&answer, &model.counters, &model.state);
            calls.push(call);
            lines.push(line.clone());
            let beyond = only_in_rules(&answer) || calls.len() > MOST_CALLS;
            if beyond {
                return Err(());
            }
            Ok(line)
        });
        if done.is_err() {
            planned.cut = true;
            break;
        }
        planned.tasks.push(task);
        planned.list.calls.extend(calls);
        planned.lines.extend(lines);
    }
    planned
}

/// What its judge does with it.
pub fn observe(planned: &Planned) -> Whole {
    let Planned {
        replies,
        tasks,
        list,
        ..
    } = planned;
    match planned.judge() {
        Judge::Rust => run_whole(&list.setup, None, replies, tasks),
        Judge::Model => {
            let scenario = Scenario {
                setup: list.setup.clone(),
                odd: None,
                initial: vec![],
                replies: replies.clone(),
                runs: vec![],
            };
            by_model(&scenario, tasks)
        }
    }
}

impl Planned {
    pub fn judge(&self) -> Judge {
        Judge::of_list(&self.list)
    }

    /// Whether it is compared: a build that document 01 alone refuses is not, where the original judges.
    pub fn is_compared(&self, whole: &Whole) -> bool {
        let alone = matches!(whole.built, Err((_, Origin::Rules)));
        !alone || self.judge() == Judge::Model
    }
}

/// What a program shows that printed these lines, or why the host does not understand it.
fn replayed<'a>(
    planned: &Planned,
    lines: &mut impl Iterator<Item = &'a str>,
) -> Result<Vec<Shown>, String> {
    let mut take = || lines.next().ok_or("a line is missing".to_string());
    let unread = |line: &str| format!("this is no line of an answer: {}", cut(line));
    let built = take()?;
    if let Some(refused) = built
        .strip_suffix('\n')
        .filter(|l| l.starts_with("refused "))
    {
        return Ok(vec![Shown {
            parts: vec![refused.to_string()],
            history: vec![],
            handled: vec![],
        }]);
    }
    let mut host = Host::new(planned.list.setup.n, &planned.replies);
    let mut all = vec![host.shown(&Line::of(built).ok_or(unread(built))?)];
    let mut calls = planned.list.calls.iter();
    for task in &planned.tasks {
        let last = host.carry_out(task, |call: Call| {
            let expected = calls.next();
            if expected != Some(&call) {
                return Err(format!(
                    "the host calls {call:?}, the list has {expected:?}"
                ));
            }
            take().map(str::to_string)
        })?;
        all.push(host.shown(&Line::of(&last).ok_or(unread(&last))?));
    }
    match calls.next() {
        Some(call) => Err(format!(
            "the list has {call:?}, where the host has no more calls"
        )),
        None => Ok(all),
    }
}

/// What the original shows, in the same form.
fn shown(ran: &Ran) -> Shown {
    let line = words::line(&ran.answer, &ran.counters, &ran.state);
    let parts = Line::of(&line).map_or(vec![], |line| parts(&line));
    Shown {
        parts,
        history: ran.history.clone(),
        handled: ran.handled.clone(),
    }
}

fn all_shown(whole: &Whole) -> Vec<Shown> {
    match &whole.built {
        Err((refused, _)) => {
            let line = words::refused_build_line(&Answer::Refused(*refused));
            vec![Shown {
                parts: vec![line.trim_end().to_string()],
                history: vec![],
                handled: vec![],
            }]
        }
        Ok(built) => std::iter::once(built)
            .chain(&whole.ran)
            .map(shown)
            .collect(),
    }
}

/// What differs, with the original's and ours.
fn other(rust: &Shown, ours: &Shown) -> Option<String> {
    let told = |part: &str, rust: String, ours: String| {
        format!(
            "{part}\n  the Rust:    {}\n  our program: {}",
            cut(&rust),
            cut(&ours)
        )
    };
    for (at, part) in PARTS.iter().enumerate() {
        let (rust, ours) = (rust.parts.get(at), ours.parts.get(at));
        if rust != ours {
            let text = |part: Option<&String>| part.cloned().unwrap_or_default();
            return Some(told(part, text(rust), text(ours)));
        }
    }
    if rust.history != ours.history {
        let texts = [&rust.history, &ours.history].map(|history| format!("{history:x?}"));
        let [rust, ours] = texts;
        return Some(told("gvt_history", rust, ours));
    }
    let handled = |shown: &Shown, p: usize| shown.handled.get(p).cloned();
    let most = rust.handled.len().max(ours.handled.len());
    let p = (0..most).find(|&p| handled(rust, p) != handled(ours, p))?;
    let text = |events: Option<Vec<Message>>| format!("{:?}", events.unwrap_or_default());
    let part = format!("the events handed to process {p}");
    Some(told(&part, text(handled(rust, p)), text(handled(ours, p))))
}

/// The first line that is not the model's.
fn other_line<'a>(planned: &Planned, lines: &mut impl Iterator<Item = &'a str>) -> Option<String> {
    planned.lines.iter().enumerate().find_map(|(at, right)| {
        let ours = lines.next().unwrap_or("");
        (right != ours).then(|| {
            let (right, ours) = (cut(right), cut(ours));
            let after = format!("after call {at} (0 is the build)");
            format!("{after}:\n  the model:   {right}\n  our program: {ours}")
        })
    })
}

/// The first difference between the judge and a program that printed these lines.
pub fn check<'a>(
    planned: &Planned,
    whole: &Whole,
    lines: &mut impl Iterator<Item = &'a str>,
) -> Option<String> {
    if planned.judge() == Judge::Model {
        return other_line(planned, lines);
    }
    let ours = match replayed(planned, lines) {
        Ok(ours) => ours,
        Err(cause) => return Some(cause),
    };
    let rust = all_shown(whole);
    let each = rust.iter().zip(&ours).enumerate();
    let found = each.filter_map(|(at, (rust, ours))| {
        other(rust, ours).map(|what| format!("after task {at} (0 is the build): {what}"))
    });
    let found = found.take(1).next();
    found.or((rust.len() != ours.len()).then(|| "another number of tasks".to_string()))
}

/// The scenario with this number; none where document 01 alone refuses the build. Every other one has different
/// lookaheads.
pub fn numbered(seed: u64, number: u64) -> (Scenario, Option<(Planned, Whole)>) {
    let (number, mixed) = every_other(number);
    let mut dice = dice(seed.wrapping_mul(1 << 33), number, mixed);
    let scenario = generate::built_scenario(&mut dice, mixed);
    let planned = planned(&scenario);
    let whole = observe(&planned);
    let compared = planned.is_compared(&whole).then_some((planned, whole));
    (scenario, compared)
}
