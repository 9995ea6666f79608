//! A small form of a file that still differs.
use crate::file::{decode, encode, Plan};
use std::time::{Duration, Instant};

/// Files that take long to run are not worth more.
const MOST_TIME: Duration = Duration::from_secs(5);

/// A list of a plan: its replies, its initial events, its edges, or the emissions of one reply.
#[derive(Clone, Copy)]
enum List {
    Replies,
    Initial,
    Edges,
    Emissions(usize),
}

impl List {
    fn length(self, plan: &Plan) -> usize {
        match self {
            List::Replies => plan.replies.len(),
            List::Initial => plan.initial.len(),
            List::Edges => plan.edges.len(),
            List::Emissions(at) => plan.replies[at].1.len(),
        }
    }

    /// The plan without so many items from this place on.
    fn without(self, plan: &Plan, from: usize, count: usize) -> Plan {
        let mut less = plan.clone();
        let part = from..self.length(plan).min(from + count);
        match self {
            List::Replies => drop(less.replies.drain(part)),
            List::Initial => drop(less.initial.drain(part)),
            List::Edges => drop(less.edges.drain(part)),
            List::Emissions(at) => drop(less.replies[at].1.drain(part)),
        }
        less
    }
}

/// Takes items of a list away, many at a time and then fewer, as long as the plan still differs.
fn shrink_list(plan: &mut Plan, list: List, differs: &dyn Fn(&Plan) -> bool) {
    let mut count = list.length(plan);
    while count > 0 {
        let mut from = 0;
        while from < list.length(plan) {
            let less = list.without(plan, from, count);
            if differs(&less) {
                *plan = less;
            } else {
                from += count;
            }
        }
        count /= 2;
    }
}

/// Takes parts away as long as it still differs. Bytes that are no plan stay as they are.
pub fn smallest(bytes: &[u8], differs: impl Fn(&[u8]) -> bool) -> Vec<u8> {
    let Ok(mut plan) = decode(bytes) else {
        return bytes.to_vec();
    };
    let start = Instant::now();
    let differs = |less: &Plan| start.elapsed() < MOST_TIME && differs(&encode(less).0);
    for list in [List::Replies, List::Initial, List::Edges] {
        shrink_list(&mut plan, list, &differs);
    }
    for at in 0..plan.replies.len() {
        shrink_list(&mut plan, List::Emissions(at), &differs);
    }
    encode(&plan).0
}
