//! `ConservativeRuntime::new` as document 01's build.
use crate::convert::refusal;
use crate::process::Scripted;
use crate::Origin;
use kairo_ecs_pdes::{ConservativeRuntime, LpId, PartitionPlan};
use kairo_ecs_types::{EntityId, SimDuration};
use model::{Refusal, Reply, Setup, MOST_PROCESSES};
use std::collections::BTreeMap;

pub type Runtime = ConservativeRuntime<Scripted>;

/// A plan with one entity, which is all that `new` needs of one. `from_entities` makes none with
/// lookahead 0; to ask `new` itself about that, the lookahead is taken out of another.
fn partition(setup: &Setup) -> Option<PartitionPlan> {
    let count = u32::try_from(setup.n).ok()?;
    let lookahead = SimDuration::from_ticks(setup.lookahead.max(1));
    let entities = vec![EntityId::new(0, 0)];
    let plan = PartitionPlan::from_entities(count, lookahead, entities).ok()?;
    if setup.lookahead == 0 {
        return Some(Runtime::plan_without_lookahead(plan));
    }
    Some(plan)
}

fn topology(setup: &Setup) -> BTreeMap<LpId, Vec<LpId>> {
    let row = |(source, row): (u32, &[u32])| {
        let destinations = row.iter().map(|&id| LpId(id)).collect();
        (LpId(source), destinations)
    };
    setup.rows().into_iter().map(row).collect()
}

/// The process with this id, which answers from its list of replies.
fn process(id: u32, replies: &[Vec<Reply>]) -> (LpId, Scripted) {
    let mine = replies.get(id as usize).cloned().unwrap_or_default();
    (LpId(id), Scripted::new(mine))
}

/// The runtime, or the refusal and who gave it. The original cannot be given what 3 and 5 refuse: its
/// maps have each id once. 2 and 4 come before them, so it is asked about those first. Nor can it be given
/// edges with lookaheads of their own: every edge has to carry the plan's.
pub fn build(setup: &Setup, replies: &[Vec<Reply>]) -> Result<Runtime, (Refusal, Origin)> {
    assert!(
        setup.is_uniform(),
        "the original has one lookahead for all edges: {setup:?}"
    );
    if setup.n > MOST_PROCESSES {
        return Err((Refusal::InvalidPartitionCount(setup.n), Origin::Rules));
    }
    let Some(plan) = partition(setup) else {
        return Err((Refusal::InvalidPartitionCount(setup.n), Origin::Rust));
    };
    let malformed = setup.malformed_rows();
    let rows = if malformed {
        BTreeMap::new()
    } else {
        topology(setup)
    };
    let processes = setup.ids.iter().map(|&id| process(id, replies)).collect();
    let made = Runtime::new(plan, rows, processes).map_err(refusal);
    match made {
        Err(Refusal::InvalidLookahead) => Err((Refusal::InvalidLookahead, Origin::Rust)),
        _ if setup.unordered() => Err((Refusal::UnorderedProcesses, Origin::Rules)),
        Err(mismatch @ Refusal::ProcessSetMismatch(..)) => Err((mismatch, Origin::Rust)),
        _ if malformed => Err((Refusal::MalformedTopology, Origin::Rules)),
        Err(other) => Err((other, Origin::Rust)),
        Ok(runtime) => Ok(runtime),
    }
}
