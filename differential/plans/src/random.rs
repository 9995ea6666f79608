//! Plans from a seed: small ones where everything collides, ticks near 2^128, 39 on both sides, 64
//! processes with 512 edges, full queues; then spoilt in up to three places. Two kinds: edges that all
//! carry the plan's lookahead, and edges with different ones.
use crate::author::{add_replies, long_payload, payload};
use crate::file::{encode, Edge, Event, Plan, MOST_BYTES};
use generate::Dice;

const TOP: u128 = u128::MAX;
const HALF: u128 = 1 << 127;
const AT_TOP: [u128; 6] = [HALF - 4, HALF, TOP - 3, TOP - 8, TOP / 5, 1];

/// A file's ids have 6 bits.
fn id(number: u64) -> u32 {
    number.min(63) as u32
}

/// What lookaheads the edges carry.
#[derive(Clone, Copy, Debug, Eq, PartialEq)]
pub enum Kind {
    /// All the plan's, so that the original can judge it.
    Uniform,
    /// Different ones, or all the same and not the plan's.
    Mixed,
}

/// Where ticks lie, how edges go, and how much happens.
struct Shape {
    n: u32,
    lookahead: u128,
    /// Edges of a mixed plan may carry one of these, or a little more.
    others: &'static [u128],
    low: u128,
    spread: u64,
    /// Edges go from lower to higher ids only, so that every run takes few rounds.
    forward: bool,
    initial: u64,
    emissions: u64,
    budgets: &'static [u64],
}

const BUDGETS: [u64; 12] = [0, 1, 1, 2, 3, 5, 8, 60, 60, 60, 1_000_000, u64::MAX];

fn small(dice: &mut Dice) -> Shape {
    Shape {
        n: 1 + dice.below(4) as u32,
        lookahead: 1 + u128::from(dice.below(4)),
        others: &[1, 1, 1, 1, 2, 2, 4, 8, HALF, TOP - 3],
        low: 0,
        spread: 4 + dice.below(9),
        forward: dice.one_in(4),
        initial: dice.below(9),
        emissions: dice.pick(&[0, 4, 8, 16]),
        budgets: &BUDGETS,
    }
}

/// Ticks near 2^128, with lookaheads that 39 lets pass, but for one of the others.
fn at_top(dice: &mut Dice) -> Shape {
    let few = u128::from(dice.below(6));
    let half = 1u128 << 127;
    let lookahead = dice.pick(&[half - 3 + few, half, TOP - few, TOP / 5, (1 << 112) + few]);
    Shape {
        lookahead,
        others: &AT_TOP,
        low: dice.pick(&[TOP - 12, half - 4, TOP - lookahead - 4.min(TOP - lookahead)]),
        spread: 14,
        forward: lookahead < 1 << 120 || dice.one_in(2),
        ..small(dice)
    }
}

fn wide(dice: &mut Dice) -> Shape {
    Shape {
        n: 5 + dice.below(12) as u32,
        ..small(dice)
    }
}

/// 64 processes, each with edges to the next eight.
fn ring(dice: &mut Dice) -> Shape {
    Shape {
        n: 64,
        lookahead: 2,
        others: &[1, 2, 3],
        initial: 20 + dice.below(200),
        emissions: dice.below(300),
        forward: false,
        budgets: &[7, 100, 2_000, 2_000],
        ..small(dice)
    }
}

/// Few processes with so many events that their queue is full, or nearly so.
fn crowd(dice: &mut Dice) -> Shape {
    Shape {
        n: 1 + dice.below(3) as u32,
        initial: 505 + dice.below(10),
        emissions: dice.below(60),
        budgets: &[3, 40, 2_000],
        ..small(dice)
    }
}

/// As many emissions as fit, from few initial events.
fn burst(dice: &mut Dice) -> Shape {
    Shape {
        initial: 200 + dice.below(200),
        emissions: 200 + dice.below(260),
        budgets: &[2_000],
        ..small(dice)
    }
}

fn any_shape(dice: &mut Dice) -> Shape {
    match dice.below(1_000) {
        0..=1 => ring(dice),
        2..=4 => crowd(dice),
        5 => burst(dice),
        6..=150 => at_top(dice),
        151..=250 => wide(dice),
        _ => small(dice),
    }
}

fn routes(dice: &mut Dice, shape: &Shape) -> Vec<(u32, u32)> {
    let n = shape.n;
    if n == 64 {
        let next = |source| (1..=8).map(move |step| (source, (source + step) % 64));
        return (0..n).flat_map(next).collect();
    }
    let dense = 1 + dice.below(3);
    let mut edges = vec![];
    for source in 0..n {
        let reachable = |d: &u32| *d != source && (*d > source || !shape.forward);
        let mut row: Vec<u32> = (0..n).filter(reachable).collect();
        row.retain(|_| dice.below(3) < dense);
        dice.shuffle(&mut row);
        edges.extend(row.into_iter().map(|d| (source, d)));
    }
    edges
}

/// The edges, in a mixed plan each with a lookahead of its own or all with one.
fn edges(dice: &mut Dice, shape: &Shape, kind: Kind) -> Vec<Edge> {
    let mut routes = routes(dice, shape);
    if kind == Kind::Mixed && routes.is_empty() {
        routes.push((0, 1));
    }
    let one = dice.one_in(5).then(|| shape.edge_lookahead(dice));
    let mut edge = |(source, destination)| {
        let lookahead = match kind {
            Kind::Uniform => shape.lookahead,
            Kind::Mixed => one.unwrap_or_else(|| shape.edge_lookahead(dice)),
        };
        Edge {
            source,
            destination,
            lookahead,
        }
    };
    routes.into_iter().map(&mut edge).collect()
}

impl Shape {
    fn edge_lookahead(&self, dice: &mut Dice) -> u128 {
        if dice.one_in(4) {
            return self.lookahead;
        }
        self.other(dice)
    }

    fn other(&self, dice: &mut Dice) -> u128 {
        let more = u128::from(dice.below(4));
        dice.pick(self.others).saturating_add(more)
    }

    fn tick(&self, dice: &mut Dice) -> u128 {
        let above = u128::from(dice.below(self.spread));
        if dice.one_in(40) {
            return dice.pick(&[0, 1, TOP - 1, TOP]);
        }
        self.low.saturating_add(above)
    }

    fn horizon(&self, dice: &mut Dice) -> u128 {
        let above = u128::from(dice.below(self.spread + 3));
        match dice.below(30) {
            0 => TOP,
            1 if self.forward => TOP - 1,
            _ => self.low.saturating_add(above),
        }
    }

    /// Along an edge or to oneself.
    fn initial(&self, dice: &mut Dice, edges: &[Edge]) -> Event {
        let own = dice.below(u64::from(self.n)) as u32;
        let (source, destination) = match edges.is_empty() || dice.one_in(3) {
            true => (own, own),
            false => {
                let edge = dice.pick(edges);
                (edge.source, edge.destination)
            }
        };
        Event {
            source,
            destination,
            tick: self.tick(dice),
            payload: payload(dice),
        }
    }
}

/// The plan's own lookahead, which in a mixed plan decides 2, and 39 where there is no edge.
fn own_lookahead(dice: &mut Dice, shape: &Shape, kind: Kind) -> u128 {
    if kind == Kind::Mixed && dice.one_in(3) {
        return shape.other(dice);
    }
    shape.lookahead
}

/// A plan that nothing is wrong with, but perhaps faulty emissions.
fn sound(dice: &mut Dice, kind: Kind) -> Plan {
    let mut shape = any_shape(dice);
    if kind == Kind::Mixed {
        shape.n = shape.n.max(2);
    }
    let edges = edges(dice, &shape, kind);
    let mut plan = Plan {
        n: u64::from(shape.n),
        lookahead: own_lookahead(dice, &shape, kind),
        horizon: shape.horizon(dice),
        budget: dice.pick(shape.budgets),
        initial: (0..shape.initial)
            .map(|_| shape.initial(dice, &edges))
            .collect(),
        edges,
        replies: vec![],
    };
    if kind == Kind::Mixed && plan.uniform() {
        plan.lookahead = plan.lookahead.checked_add(1).unwrap_or(1);
    }
    if dice.one_in(if kind == Kind::Mixed { 20 } else { 60 }) {
        near_39(dice, &shape, &mut plan);
    }
    let faults = dice.pick(&[0, 0, 6, 12, 25]);
    let faults = if shape.initial > 20 {
        faults * 20
    } else {
        faults
    };
    add_replies(dice, &mut plan, shape.emissions as usize, faults);
    plan
}

/// A horizon on either side of 39, or where it would be by the plan's lookahead or the greatest. With
/// edges both ways it would take as many rounds.
fn near_39(dice: &mut Dice, shape: &Shape, plan: &mut Plan) {
    let times: u128 = dice.pick(&[65_536, 65_537]);
    let less = u128::from(dice.below(2));
    let least = plan.least_lookahead();
    let greatest = plan.edges.iter().map(|edge| edge.lookahead).max();
    let by = dice.pick(&[least, least, plan.lookahead, greatest.unwrap_or(least)]);
    let long = times.saturating_mul(by).saturating_sub(less);
    if shape.forward || long / least > 65_536 {
        plan.horizon = long;
    }
}

/// A ring; in a mixed plan edges of the least lookahead go from 0 to 1 and back, so that it decides how
/// many rounds there are.
fn long_edges(dice: &mut Dice, shape: &Shape, kind: Kind) -> Vec<Edge> {
    let mut routes: Vec<(u32, u32)> = (0..shape.n).map(|p| (p, (p + 1) % shape.n)).collect();
    if kind == Kind::Mixed && shape.n > 2 {
        routes.insert(1, (1, 0));
    }
    let mut edge = |(source, destination)| {
        let more = match kind {
            Kind::Mixed if source + destination > 1 => 1 + dice.below(4),
            _ => 0,
        };
        Edge {
            source,
            destination,
            lookahead: shape.lookahead + u128::from(more),
        }
    };
    routes.into_iter().map(&mut edge).collect()
}

/// A plan of about as many rounds as 39 lets pass.
pub fn long_plan(dice: &mut Dice, kind: Kind) -> Plan {
    let few = if kind == Kind::Mixed { 3 } else { 2 };
    let shape = Shape {
        n: few + dice.below(5 - u64::from(few)) as u32,
        forward: false,
        ..small(dice)
    };
    let ring = long_edges(dice, &shape, kind);
    let mut plan = Plan {
        n: u64::from(shape.n),
        lookahead: own_lookahead(dice, &shape, kind),
        horizon: 65_536 * shape.lookahead + u128::from(dice.below(2)),
        budget: u64::MAX,
        initial: (0..shape.initial)
            .map(|_| shape.initial(dice, &ring))
            .collect(),
        edges: ring,
        replies: vec![],
    };
    // The first and the last rounds have something to do.
    for late in plan.initial.iter_mut().skip(shape.initial as usize / 2) {
        late.tick = late.tick.saturating_add(plan.horizon - 9);
    }
    plan
}

/// Replies that are never due, or come at another place: of unknown processes, behind all others, between.
fn more_replies(dice: &mut Dice, plan: &mut Plan) {
    for _ in 0..1 + dice.below(4) {
        let process = id(dice.pick(&[plan.n, 63, 0, plan.n / 2]));
        let event = Event {
            source: dice.below(64) as u32,
            destination: dice.below(64) as u32,
            tick: dice.pick(&[0, 5, TOP]),
            payload: if dice.one_in(4) {
                long_payload(dice)
            } else {
                payload(dice)
            },
        };
        let place = dice.index(plan.replies.len() + 1);
        let place = if u64::from(process) < plan.n {
            plan.replies.len()
        } else {
            place
        };
        plan.replies
            .insert(place, (process, vec![event; dice.index(3)]));
    }
}

fn spoil_edges(dice: &mut Dice, plan: &mut Plan) {
    let at = dice.index(plan.edges.len() + 1);
    let source = plan.edges.get(at).map_or(id(plan.n), |edge| edge.source);
    let other = dice.below(64) as u32;
    let lookahead = dice.pick(&[0, plan.lookahead, plan.lookahead, 1]);
    let edge = |source, destination| Edge {
        source,
        destination,
        lookahead,
    };
    match dice.below(8) {
        0 => plan.edges.insert(at, edge(source, source)),
        1 => plan.edges.insert(at, edge(source, other)),
        2 => plan.edges.push(edge(other, id(dice.below(plan.n)))),
        3 if at < plan.edges.len() => {
            let twice = plan.edges[at].destination;
            plan.edges.insert(at, edge(source, twice));
        }
        4 => plan.edges.reverse(),
        5 if at + 1 < plan.edges.len() => plan.edges.swap(at, at + 1),
        6 if at < plan.edges.len() => plan.edges[at].lookahead = lookahead,
        _ => plan.edges.insert(at, edge(source, id(plan.n))),
    }
    if dice.one_in(300) {
        let more = 513 + dice.index(3);
        plan.edges = (0..more)
            .map(|at| edge((at / 9) as u32, (at % 9) as u32))
            .collect();
    }
}

fn spoil_event(dice: &mut Dice, n: u64, event: &mut Event) {
    match dice.below(6) {
        0 => event.source = id(n + dice.below(2)),
        1 => event.destination = id(n + dice.below(2)),
        2 => event.source = id(dice.below(n)),
        3 => event.destination = id(dice.below(n)),
        4 => event.payload = long_payload(dice),
        _ => event.tick = dice.pick(&[0, 1, TOP - 1, TOP]),
    }
}

fn spoil(dice: &mut Dice, plan: &mut Plan) {
    let initial = dice.index(plan.initial.len());
    match dice.below(12) {
        0 => plan.n = dice.pick(&[0, 1, 2, 63, 64, 65, 127, plan.n + 1]).min(127),
        1 => plan.lookahead = dice.pick(&[0, 0, 1, plan.lookahead.saturating_add(1)]),
        2..=5 => spoil_edges(dice, plan),
        6..=8 if !plan.initial.is_empty() => spoil_event(dice, plan.n, &mut plan.initial[initial]),
        9 => plan.budget = dice.pick(&BUDGETS),
        10 => dice.shuffle(&mut plan.replies),
        _ => more_replies(dice, plan),
    }
}

/// Replies last, then initial events, until the file is not too large.
fn fitted(mut plan: Plan) -> Plan {
    plan.edges.truncate(1_023);
    while encode(&plan).0.len() > MOST_BYTES {
        if plan.replies.pop().is_none() {
            plan.initial.pop();
        }
    }
    plan
}

/// Any plan whose file is not too large.
pub fn any_plan(dice: &mut Dice, kind: Kind) -> Plan {
    let mut plan = sound(dice, kind);
    if dice.one_in(3) {
        for _ in 0..1 + dice.below(3) {
            spoil(dice, &mut plan);
        }
    }
    if kind == Kind::Uniform {
        let lookahead = plan.lookahead;
        plan.edges.iter_mut().for_each(|e| e.lookahead = lookahead);
    }
    fitted(plan)
}

/// A plan whose file has exactly so many bytes, if there is room for that.
pub fn filled(dice: &mut Dice, mut plan: Plan, bytes: usize) -> Option<Plan> {
    let event = |length: usize| Event {
        source: 1,
        destination: 1,
        tick: 1,
        payload: vec![0xFF; length],
    };
    let process = dice.below(64) as u32;
    while plan.replies.len() < 1_023 {
        let size = encode(&plan).0.len();
        if size >= bytes {
            return (size == bytes).then_some(plan);
        }
        // A reply with one event takes 161 bits and its payload.
        let spare = 8 * (bytes - size);
        let length = (spare.saturating_sub(161) / 8).min(31);
        let emissions = if spare >= 161 {
            vec![event(length)]
        } else {
            vec![]
        };
        plan.replies.push((process, emissions));
    }
    None
}
