//! Documents 01 and 02 as a plain runtime, each edge with a lookahead of its own (A.4). It alone judges
//! plans whose edges carry other lookaheads than the plan's; on all others it is held to the original.
use crate::file::{Edge, Event, Plan};
use std::collections::BTreeSet;

const MOST_PROCESSES: u64 = 64;
const MOST_EDGES: usize = 512;
const MOST_PENDING: usize = 512;
const MOST_PAYLOAD: usize = 16;

/// The number of a refusal.
pub type Number = usize;

/// An event that was handed out.
#[derive(Clone, Copy, Debug)]
pub struct Handed {
    pub process: u32,
    pub tick: u128,
    pub source: u32,
}

/// What a step answers.
pub enum Step {
    Batch(Vec<Handed>),
    Advanced,
    Finished,
    Refused(Number),
}

struct Bounded {
    edge: Edge,
    bound: u128,
}

pub struct Runtime {
    n: usize,
    edges: Vec<Bounded>,
    /// Of each process its events, "ordered by (tick, source, sequence)".
    queues: Vec<BTreeSet<(u128, u32, u64)>>,
    next: u64,
    /// h(p), the local horizons.
    horizons: Vec<u128>,
    horizon: u128,
    budget: u64,
    used: u64,
    pub gvt: u128,
    pub rounds: u64,
    pub null_messages: u64,
}

fn raise(value: &mut u128, to: u128) -> bool {
    let rises = to > *value;
    *value = to.max(*value);
    rises
}

/// "row sources not strictly rising, .. over 512 edges": of a file, edges that do not stand by rising
/// source.
fn malformed(edges: &[Edge]) -> bool {
    edges.windows(2).any(|two| two[0].source > two[1].source) || edges.len() > MOST_EDGES
}

/// "7, and for each destination in turn 8, 9, 10", "40 an edge lookahead of 0, after 10 for that edge".
fn edge_refused(n: u64, edges: &[Edge], at: usize) -> Option<Number> {
    let e = &edges[at];
    let same = |other: &Edge| (other.source, other.destination) == (e.source, e.destination);
    if u64::from(e.source) >= n {
        return Some(7);
    }
    if u64::from(e.destination) >= n {
        return Some(8);
    }
    if e.destination == e.source {
        return Some(9);
    }
    if edges[..at].iter().any(same) {
        return Some(10);
    }
    (e.lookahead == 0).then_some(40)
}

/// Build's refusals in their order. A file's ids are 0 to n-1 and every process has a row, so 3, 4 and 6
/// do not come.
fn build_refused(plan: &Plan) -> Option<Number> {
    if plan.n == 0 || plan.n > MOST_PROCESSES {
        return Some(1);
    }
    if plan.lookahead == 0 {
        return Some(2);
    }
    if malformed(&plan.edges) {
        return Some(5);
    }
    (0..plan.edges.len()).find_map(|at| edge_refused(plan.n, &plan.edges, at))
}

impl Runtime {
    pub fn build(plan: &Plan) -> Result<Self, Number> {
        if let Some(number) = build_refused(plan) {
            return Err(number);
        }
        let n = plan.n as usize;
        let bounded = |&edge: &Edge| Bounded {
            edge,
            bound: edge.lookahead,
        };
        Ok(Self {
            n,
            edges: plan.edges.iter().map(bounded).collect(),
            queues: vec![BTreeSet::new(); n],
            next: 0,
            horizons: vec![0; n],
            horizon: 0,
            budget: 0,
            used: 0,
            gvt: 0,
            rounds: 0,
            null_messages: 0,
        })
    }

    fn known(&self, id: u32) -> bool {
        (id as usize) < self.n
    }

    fn edge(&self, source: u32, destination: u32) -> Option<&Edge> {
        let mut edges = self.edges.iter().map(|bounded| &bounded.edge);
        edges.find(|e| (e.source, e.destination) == (source, destination))
    }

    /// "A route exists from a process to itself and along an edge."
    fn has_route(&self, source: u32, destination: u32) -> bool {
        source == destination || self.edge(source, destination).is_some()
    }

    fn pending(&self) -> usize {
        self.queues.iter().map(BTreeSet::len).sum()
    }

    fn enqueue(&mut self, e: &Event) {
        self.queues[e.destination as usize].insert((e.tick, e.source, self.next));
        self.next += 1;
    }

    pub fn add_initial(&mut self, e: &Event) -> Result<(), Number> {
        if !self.known(e.source) {
            return Err(14);
        }
        if !self.known(e.destination) {
            return Err(15);
        }
        if !self.has_route(e.source, e.destination) {
            return Err(16);
        }
        if e.payload.len() > MOST_PAYLOAD {
            return Err(17);
        }
        if self.pending() >= MOST_PENDING {
            return Err(18);
        }
        self.enqueue(e);
        Ok(())
    }

    pub fn begin(&mut self, horizon: u128, budget: u64) -> Result<(), Number> {
        if horizon == u128::MAX {
            return Err(22);
        }
        (self.horizon, self.budget) = (horizon, budget);
        Ok(())
    }

    /// "H = accepted horizon + 1"
    fn end(&self) -> u128 {
        self.horizon + 1
    }

    /// "safe(p) is the least of H and the bounds of edges into p"
    fn frontiers(&self) -> Vec<u128> {
        let mut safe = vec![self.end(); self.n];
        for Bounded { edge, bound } in &self.edges {
            let frontier = &mut safe[edge.destination as usize];
            *frontier = (*bound).min(*frontier);
        }
        safe
    }

    fn first_tick(&self, p: usize) -> Option<u128> {
        self.queues[p].first().map(|event| event.0)
    }

    fn eligible(&self, p: usize, safe: &[u128]) -> bool {
        self.first_tick(p).is_some_and(|tick| tick < safe[p])
    }

    /// "budget spent, an event eligible"
    fn spent(&self, safe: &[u128]) -> bool {
        self.used >= self.budget && (0..self.n).any(|p| self.eligible(p, safe))
    }

    /// "in id order, take the first eligible event of each process while used + taken < budget"
    fn take_batch(&mut self, safe: &[u128]) -> Vec<Handed> {
        let mut batch = vec![];
        for p in 0..self.n {
            let within = self.used + (batch.len() as u64) < self.budget;
            if !within || !self.eligible(p, safe) {
                continue;
            }
            let first = self.queues[p].pop_first();
            batch.extend(first.map(|(tick, source, _)| Handed {
                process: p as u32,
                tick,
                source,
            }));
        }
        batch
    }

    /// "h(p) rises to min(safe(p), first pending tick if any)", then GVT.
    fn refresh(&mut self, safe: &[u128]) {
        let mut gvt = self.horizon;
        for (p, &frontier) in safe.iter().enumerate() {
            let first = self.first_tick(p);
            let h = &mut self.horizons[p];
            raise(h, first.map_or(frontier, |tick| tick.min(frontier)));
            gvt = gvt.min(h.saturating_sub(1));
            gvt = first.map_or(gvt, |tick| tick.min(gvt));
        }
        raise(&mut self.gvt, gvt);
    }

    /// Whether anything rose. Frontiers are those from before it.
    fn advance(&mut self, safe: &[u128]) -> bool {
        let end = self.end();
        let reached = |p: usize| safe[p].min(self.first_tick(p).unwrap_or(end));
        let reached: Vec<u128> = (0..self.n).map(reached).collect();
        let mut rose = false;
        for (h, &to) in self.horizons.iter_mut().zip(&reached) {
            rose |= raise(h, to);
        }
        for Bounded { edge, bound } in &mut self.edges {
            let sum = reached[edge.source as usize].checked_add(edge.lookahead);
            if raise(bound, sum.map_or(end, |sum| sum.min(end))) {
                self.null_messages += 1;
                rose = true;
            }
        }
        self.rounds += u64::from(rose);
        self.refresh(safe);
        rose
    }

    pub fn step(&mut self) -> Step {
        let safe = self.frontiers();
        let batch = self.take_batch(&safe);
        if !batch.is_empty() {
            return Step::Batch(batch);
        }
        if self.spent(&safe) {
            return Step::Refused(24);
        }
        if self.advance(&safe) {
            return Step::Advanced;
        }
        let end = self.end();
        let complete =
            |p: usize| self.horizons[p] >= end && self.first_tick(p).is_none_or(|tick| tick >= end);
        if (0..self.n).all(complete) {
            Step::Finished
        } else {
            Step::Refused(12)
        }
    }

    /// 28 to 33 of an emission in answer to an event.
    fn emission_refused(&self, of: &Handed, e: &Event) -> Option<Number> {
        if e.source != of.process {
            return Some(28);
        }
        if !self.known(e.destination) {
            return Some(29);
        }
        if !self.has_route(e.source, e.destination) {
            return Some(30);
        }
        // "The minimum tick is the event's tick for an emission to oneself", else that tick and the
        // edge's lookahead.
        let lookahead = self
            .edge(e.source, e.destination)
            .map_or(0, |e| e.lookahead);
        let Some(minimum) = of.tick.checked_add(lookahead) else {
            return Some(31);
        };
        if e.tick < minimum {
            return Some(32);
        }
        (e.tick < self.horizons[e.destination as usize]).then_some(33)
    }

    fn reply_refused(&self, batch: &[Handed], replies: &[Vec<Event>]) -> Option<Number> {
        let mut all = replies.iter().flatten();
        if all.any(|e| e.payload.len() > MOST_PAYLOAD) {
            return Some(26);
        }
        let each = batch.iter().zip(replies);
        let mut each = each.flat_map(|(of, reply)| reply.iter().map(move |e| (of, e)));
        if let Some(number) = each.find_map(|(of, e)| self.emission_refused(of, e)) {
            return Some(number);
        }
        let emitted: usize = replies.iter().map(Vec::len).sum();
        (self.pending() + emitted > MOST_PENDING).then_some(18)
    }

    /// The replies to a batch, one for each of its events. 24 counts it as handled, other refusals lose it.
    pub fn hand_back(&mut self, batch: &[Handed], replies: &[Vec<Event>]) -> Result<(), Number> {
        if let Some(number) = self.reply_refused(batch, replies) {
            return Err(number);
        }
        replies.iter().flatten().for_each(|e| self.enqueue(e));
        self.used += batch.len() as u64;
        self.rounds += 1;
        let safe = self.frontiers();
        if self.spent(&safe) {
            return Err(24);
        }
        self.refresh(&safe);
        Ok(())
    }
}
