//! Times `partition::plan` beside the original's `PartitionPlan::from_entities`, in one run and on the
//! same entities. Prints nanoseconds for each plan: the least over the rounds, and the median.
use kairo_ecs_pdes::PartitionPlan;
use kairo_ecs_types::{EntityId, SimDuration};
use std::hint::black_box;
use std::time::Instant;

/// Many short rounds: the least is then one that nothing else ran into.
const ROUNDS: usize = 1001;
const PLANS: u32 = 5;
const PROCESSES: u32 = 64;

#[link(name = "bench_plan", kind = "static")]
extern "C" {
    /// crates/bench_plan: a slice is its pointer and its length.
    fn timed_plan(
        count: u64,
        lookahead: u64,
        given: *const u64,
        given_len: usize,
        lent: *mut u64,
        lent_len: usize,
    ) -> u64;
}

/// Plan in Rattle: how many entities were written.
fn rattle(given: &[u64], lent: &mut [u64]) -> u64 {
    let (count, lookahead) = (u64::from(PROCESSES), 1);
    // SAFETY: both pointers come from slices of the lengths that go with them, and the second is not shared.
    unsafe {
        timed_plan(
            count,
            lookahead,
            given.as_ptr(),
            given.len(),
            lent.as_mut_ptr(),
            lent.len(),
        )
    }
}

/// The original's plan. It takes its entities, so they are copied for it first.
fn from_entities(given: &[EntityId]) -> bool {
    PartitionPlan::from_entities(PROCESSES, SimDuration::from_ticks(1), given.to_vec()).is_ok()
}

/// Of that, what plan does too: the copy, the sort and the search for an entity that stands twice.
fn sort_and_search(given: &[EntityId]) -> Vec<EntityId> {
    let mut entities = given.to_vec();
    entities.sort();
    assert!(entities.windows(2).all(|pair| pair[0] != pair[1]));
    entities
}

/// Nanoseconds for each of some plans.
fn time(plan: &mut dyn FnMut()) -> f64 {
    let start = Instant::now();
    for _ in 0..PLANS {
        plan();
    }
    start.elapsed().as_nanos() as f64 / f64::from(PLANS)
}

/// The least and the median.
fn summary(mut times: Vec<f64>) -> (f64, f64) {
    times.sort_by(f64::total_cmp);
    (times[0], times[times.len() / 2])
}

fn measure(name: &str, entities: &[EntityId]) {
    let pair = |e: &EntityId| [e.index, u64::from(e.generation)];
    let given: Vec<u64> = entities.iter().flat_map(pair).collect();
    let mut lent = vec![0; given.len()];
    assert_eq!(rattle(&given, &mut lent), entities.len() as u64);
    let sorted: Vec<u64> = sort_and_search(entities).iter().flat_map(pair).collect();
    assert_eq!(lent, sorted, "the two plans differ");
    let mut times = [vec![], vec![], vec![]];
    for _ in 0..ROUNDS {
        times[0].push(time(&mut || {
            black_box(rattle(black_box(&given), &mut lent));
        }));
        times[1].push(time(&mut || {
            black_box(from_entities(black_box(entities)));
        }));
        times[2].push(time(&mut || {
            black_box(sort_and_search(black_box(entities)));
        }));
    }
    let [ours, whole, part] = times.map(summary);
    println!(
        "{:>5} {name:<15} Rattle {:>7.0} ({:>7.0})  from_entities {:>7.0} ({:>7.0})  its sort and search {:>7.0} ({:>7.0})  ratios {:.2} {:.2}",
        entities.len(), ours.0, ours.1, whole.0, whole.1, part.0, part.1, ours.0 / whole.0, ours.0 / part.0
    );
}

/// Numbers that look random (Marsaglia's xorshift).
fn random(state: &mut u64) -> u64 {
    *state ^= *state << 13;
    *state ^= *state >> 7;
    *state ^= *state << 17;
    *state
}

fn shuffled(mut entities: Vec<EntityId>) -> Vec<EntityId> {
    let mut state = 20_260_101;
    for at in (1..entities.len()).rev() {
        entities.swap(at, (random(&mut state) % (at as u64 + 1)) as usize);
    }
    entities
}

fn main() {
    println!("nanoseconds for a plan, least (median) of {ROUNDS} rounds of {PLANS} plans; {PROCESSES} processes");
    for count in [16, 128, 1024] {
        let sorted: Vec<EntityId> = (0..count).map(|i| EntityId::new(i * 3, 0)).collect();
        let mut state = 7;
        let any = |_| EntityId::new(random(&mut state), 0);
        let one_index = |i| EntityId::new(5, i as u32);
        measure("sorted", &sorted);
        measure(
            "reversed",
            &sorted.iter().rev().copied().collect::<Vec<_>>(),
        );
        measure("shuffled", &shuffled(sorted.clone()));
        measure("random", &(0..count).map(any).collect::<Vec<_>>());
        measure(
            "equal indices",
            &shuffled((0..count).map(one_index).collect()),
        );
    }
}
