//! A few large ones: 64 processes with 512 edges, and full queues.
use crate::calls::{initial, next_call};
use crate::dice::Dice;
use crate::lookaheads::with_lookaheads;
use crate::plans::large_plan;
use crate::replies::payload;
use crate::setups::good_setup;
use crate::shape::Shape;
use crate::whole::add_runs;
use model::{
    Call, Counters, Emission, Host, List, Message, Odd, Rules, Scenario, Setup, MOST, MOST_PENDING,
};

/// 64 processes, each with edges to the next eight.
fn ring(dice: &mut Dice, shape: &Shape) -> Setup {
    let next = |source: u32| (1..=8).map(move |step| (source + step) % 64);
    let setup = Setup {
        n: 64,
        lookahead: 2,
        ids: (0..64).collect(),
        sources: (0..64).collect(),
        counts: vec![8; 64],
        destinations: (0..64).flat_map(next).collect(),
        lookaheads: vec![],
    };
    with_lookaheads(dice, shape, setup)
}

fn ring_shape(dice: &mut Dice, mixed: bool) -> Shape {
    Shape {
        n: 64,
        lookahead: 2,
        low: 0,
        spread: 6,
        dense: 3,
        forward: false,
        odd: false,
        mixed,
        faults: dice.pick(&[0, 0, 200]),
        eager: 8,
    }
}

/// Few processes, for a full queue.
fn crowd_shape(dice: &mut Dice, mixed: bool) -> Shape {
    let shape = Shape {
        n: 1 + dice.below(3) as u32,
        spread: 5,
        low: 0,
        odd: false,
        faults: 0,
        ..Shape::any(dice)
    };
    shape.with(mixed)
}

/// As many initial events as may be pending.
fn crowd(dice: &mut Dice, shape: &Shape, setup: &Setup) -> Vec<Message> {
    let Ok(host) = Host::build(Rules::RIGHT, setup) else {
        return vec![];
    };
    let mut message = |_| Message {
        payload: payload(dice),
        ..initial(dice, shape, &host.state)
    };
    let any: Vec<Message> = (0..600).map(&mut message).collect();
    let good = |m: &Message| u64::from(m.source.max(m.destination)) < setup.n;
    let routed = |m: &Message| {
        let edge = |e: &model::Edge| e.source == m.source && e.destination == m.destination;
        m.source == m.destination || host.state.edges.iter().any(edge)
    };
    any.into_iter()
        .filter(|m| good(m) && routed(m))
        .take(MOST_PENDING)
        .collect()
}

/// Sequence numbers that run out while the queue is full.
fn almost_numbered(dice: &mut Dice, setup: &Setup) -> Odd {
    Odd {
        bounds: setup.destinations.iter().map(|_| 4).collect(),
        horizons: setup.ids.iter().map(|_| 0).collect(),
        record: None,
        lookahead: None,
        next: MOST - MOST_PENDING as u64 - dice.below(3),
        gvt: 0,
        initial: true,
        stored: None,
        counters: Counters::default(),
    }
}

/// Emissions to oneself, at the event's own tick.
fn burst(host: &Host, count: usize) -> Vec<Emission> {
    let Some(event) = host.state.batch.first() else {
        return vec![];
    };
    let emission = Emission {
        emitter: event.destination,
        message: Message {
            source: event.destination,
            ..event.message()
        },
    };
    vec![emission; count]
}

/// A list that is made call by call.
struct Maker {
    host: Host,
    calls: Vec<Call>,
}

impl Maker {
    fn call(&mut self, call: Call) {
        self.host.call(&call);
        self.calls.push(call);
    }

    /// A step, and a hand back with as many emissions as leave `over` more than there is room for.
    fn overflow(&mut self, over: usize) {
        self.call(Call::Step);
        let room = MOST_PENDING - self.host.state.pending.len();
        let emissions = burst(&self.host, room + over);
        self.call(Call::HandBack { mask: 0, emissions });
    }
}

fn full_queue(dice: &mut Dice, mixed: bool) -> List {
    let shape = crowd_shape(dice, mixed);
    let setup = good_setup(dice, &shape);
    let odd = dice.one_in(2).then(|| almost_numbered(dice, &setup));
    let initial = crowd(dice, &shape, &setup);
    let mut list = List {
        setup,
        odd,
        calls: vec![],
    };
    if let Ok(mut host) = Host::build(Rules::RIGHT, &list.setup) {
        if let Some(odd) = &list.odd {
            host.set(odd);
        }
        let mut maker = Maker {
            host,
            calls: vec![],
        };
        for message in initial.iter().chain(initial.first()) {
            maker.call(Call::AddInitial(*message));
        }
        let budget = dice.pick(&[1, 2, 60]);
        maker.call(Call::Begin { horizon: 9, budget });
        for over in [0, dice.index(2), 1] {
            maker.overflow(over);
        }
        maker.call(Call::ReadPending);
        list.calls = maker.calls;
    }
    list
}

fn ring_list(dice: &mut Dice, count: usize, eager: u64, mixed: bool) -> List {
    let shape = Shape {
        eager,
        ..ring_shape(dice, mixed)
    };
    let mut list = List {
        setup: ring(dice, &shape),
        odd: None,
        calls: vec![],
    };
    if let Ok(host) = Host::build(Rules::RIGHT, &list.setup) {
        let mut maker = Maker {
            host,
            calls: vec![],
        };
        for _ in 0..count {
            let call = next_call(dice, &shape, &maker.host.state);
            maker.call(call);
        }
        list.calls = maker.calls;
    }
    list
}

/// A large list.
pub fn list(dice: &mut Dice, mixed: bool) -> List {
    if dice.one_in(2) {
        full_queue(dice, mixed)
    } else {
        let eager = dice.pick(&[4, 40]);
        ring_list(dice, 70, eager, mixed)
    }
}

/// A large scenario of whole runs.
pub fn scenario(dice: &mut Dice, mixed: bool) -> Scenario {
    let many = dice.one_in(2);
    let shape = if many {
        ring_shape(dice, mixed)
    } else {
        crowd_shape(dice, mixed)
    };
    let setup = if many {
        ring(dice, &shape)
    } else {
        good_setup(dice, &shape)
    };
    let initial = match many {
        true => crowd(dice, &shape, &setup).into_iter().take(90).collect(),
        false => crowd(dice, &shape, &setup),
    };
    let mut scenario = Scenario {
        setup,
        odd: None,
        initial,
        replies: vec![],
        runs: vec![],
    };
    if let Ok(mut host) = Host::build(Rules::RIGHT, &scenario.setup) {
        for message in &scenario.initial {
            host.call(&Call::AddInitial(*message));
        }
        add_runs(dice, &shape, &mut host, &mut scenario);
    }
    scenario
}

/// The queue filled by one hand back, and one emission too many in the next.
fn full_by_one_reply(over: usize) -> List {
    let mut list = List {
        setup: Setup {
            n: 1,
            lookahead: 1,
            ids: vec![0],
            sources: vec![0],
            counts: vec![0],
            destinations: vec![],
            lookaheads: vec![],
        },
        odd: None,
        calls: vec![],
    };
    if let Ok(host) = Host::build(Rules::RIGHT, &list.setup) {
        let mut maker = Maker {
            host,
            calls: vec![],
        };
        maker.call(Call::AddInitial(Message {
            source: 0,
            destination: 0,
            tick: 3,
            payload: Default::default(),
        }));
        maker.call(Call::Begin {
            horizon: 9,
            budget: 2,
        });
        maker.overflow(0);
        maker.overflow(over);
        maker.call(Call::ReadPending);
        list.calls = maker.calls;
    }
    list
}

fn more_edges_than_there_may_be(dice: &mut Dice) -> List {
    let shape = ring_shape(dice, false);
    let mut setup = ring(dice, &shape);
    setup.counts[63] += 1;
    setup.destinations.push(40);
    List {
        setup: setup.made_uniform(),
        odd: None,
        calls: vec![],
    }
}

/// How many large lists the stored sample has.
pub const STORED: u64 = 6;

/// The large lists of the stored sample.
pub fn stored_list(dice: &mut Dice, number: u64, mixed: bool) -> List {
    match number {
        0 => full_by_one_reply(0),
        1 => full_by_one_reply(1),
        2 => more_edges_than_there_may_be(dice),
        3 => {
            let mut list = full_by_one_reply(0);
            list.calls = vec![large_plan(dice), large_plan(dice)];
            list
        }
        _ => ring_list(dice, 12, 3, mixed),
    }
}
