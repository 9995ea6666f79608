//! A list of calls as 64-bit words.
use model::{Call, Counters, Edge, Emission, Entity, Event, List, Message, Payload, Setup, State};

/// The process count that stands for a state given whole, in place of a build.
pub const STATE: u64 = u64::MAX - 1;

/// How many edges, pending events and processes there is room for. The table of the processes has the
/// local horizons of so many, then their least inbound bounds.
const EDGES: usize = 512;
const PENDING: usize = 512;
const PROCESSES: usize = 64;

/// The words so far, and what stands where nothing counts: in the upper half of an id word, in the
/// payload bytes behind the length, and in a state's ticks of processes that there are not.
struct Words {
    words: Vec<u64>,
    noise: u32,
}

impl Words {
    fn put(&mut self, words: impl IntoIterator<Item = u64>) {
        self.words.extend(words);
    }

    fn wide(&mut self, number: u128) {
        self.put([(number >> 64) as u64, number as u64]);
    }

    fn id(&mut self, id: u32) {
        self.put([u64::from(self.noise) << 32 | u64::from(id)]);
    }

    fn ids(&mut self, ids: &[u32]) {
        self.put([ids.len() as u64]);
        ids.iter().for_each(|id| self.id(*id));
    }

    fn payload(&mut self, payload: &Payload) {
        let mut bytes = [self.noise as u8; 16];
        for (to, from) in bytes.iter_mut().zip(payload.bytes()) {
            *to = *from;
        }
        self.put([payload.length()]);
        self.wide(u128::from_be_bytes(bytes));
    }

    fn message(&mut self, m: &Message) {
        self.id(m.source);
        self.id(m.destination);
        self.wide(m.tick);
        self.payload(&m.payload);
    }

    fn setup(&mut self, setup: &Setup) {
        self.put([setup.n]);
        self.wide(setup.lookahead);
        self.ids(&setup.ids);
        self.put([setup.sources.len() as u64]);
        for (&source, &count) in setup.sources.iter().zip(&setup.counts) {
            self.id(source);
            self.put([count]);
        }
        self.ids(&setup.destinations);
        self.put([setup.lookaheads.len() as u64]);
        self.put(setup.lookaheads.iter().copied());
    }

    fn emissions(&mut self, emissions: &[Emission]) {
        self.put([emissions.len() as u64]);
        for emission in emissions {
            self.id(emission.emitter);
            self.message(&emission.message);
        }
    }

    fn entities(&mut self, entities: &[Entity]) {
        self.put([entities.len() as u64]);
        for entity in entities {
            self.put([entity.index, entity.generation]);
        }
    }

    fn call(&mut self, call: &Call) {
        match call {
            Call::AddInitial(message) => {
                self.put([0]);
                self.message(message);
            }
            Call::Begin { horizon, budget } => {
                self.put([1]);
                self.wide(*horizon);
                self.put([*budget]);
            }
            Call::Step => self.put([2]),
            Call::HandBack { mask, emissions } => {
                self.put([3, *mask]);
                self.emissions(emissions);
            }
            Call::ReadGvt => self.put([4]),
            Call::ReadCounters => self.put([5]),
            Call::ReadPending => self.put([6]),
            Call::ReadEarliest => self.put([7]),
            Call::Plan {
                n,
                lookahead,
                lent,
                entities,
            } => {
                self.put([8, *n]);
                self.wide(*lookahead);
                self.put([*lent]);
                self.entities(entities);
            }
        }
    }
}

/// An event of a state. Its ids are words like any other.
fn event(e: &Event) -> Vec<u64> {
    let mut words = Words {
        words: vec![],
        noise: 0,
    };
    words.put([u64::from(e.destination)]);
    words.wide(e.tick);
    words.put([u64::from(e.source), e.sequence]);
    words.payload(&e.payload);
    words.words
}

impl Words {
    /// An array of a state, as much of it as there is room for.
    fn array(&mut self, room: usize, things: impl Iterator<Item = Vec<u64>>) {
        let words: Vec<u64> = things.take(room).flatten().collect();
        self.put([words.len() as u64]);
        self.put(words);
    }

    fn state(&mut self, s: &State, c: &Counters) {
        self.put([STATE]);
        self.wide(s.lookahead);
        self.put([s.n, s.next]);
        self.wide(s.gvt);
        self.put([u64::from(s.stored.is_some())]);
        self.wide(s.stored.map_or(0, |stored| stored.horizon));
        self.put([s.stored.map_or(0, |stored| stored.budget), s.used]);
        self.put([s.initial, s.running, s.poisoned].map(u64::from));
        self.put([s.edges.len(), s.pending.len(), s.batch.len()].map(|count| count as u64));
        self.put([c.handled, c.emitted, c.remote, c.rounds]);
        self.put([c.null_messages, c.worker_count]);
        let wide = |number: u128| [(number >> 64) as u64, number as u64];
        let edge = |e: &Edge| {
            let ends = [e.source, e.destination].map(u64::from);
            [ends, wide(e.lookahead), wide(e.bound)].concat()
        };
        self.array(EDGES, s.edges.iter().map(edge));
        self.array(PENDING, s.pending.iter().map(event));
        let processes = self.processes(s);
        self.array(2 * PROCESSES, processes.iter().map(|&t| wide(t).to_vec()));
        self.array(PROCESSES, s.batch.iter().map(event));
    }

    /// The table of the processes, both parts filled up. Without noise, the end is not given.
    fn processes(&self, s: &State) -> Vec<u128> {
        let mut table = s.horizons.clone();
        let nothing = u128::from(self.noise) << 64 | u128::from(self.noise);
        table.resize(PROCESSES, nothing);
        table.extend(&s.inbound);
        if self.noise > 0 {
            table.resize(2 * PROCESSES, nothing);
        }
        table
    }
}

/// The words of a list on a state given whole.
pub fn encode_given(s: &State, c: &Counters, calls: &[Call], noise: u32) -> Vec<u64> {
    let mut words = Words {
        words: vec![],
        noise,
    };
    words.state(s, c);
    words.put([calls.len() as u64]);
    calls.iter().for_each(|call| words.call(call));
    words.words
}

/// The words of a list. Private fields set by hand are left out: `encode_given` has them.
pub fn encode(list: &List, noise: u32) -> Vec<u64> {
    let mut words = Words {
        words: vec![],
        noise,
    };
    words.setup(&list.setup);
    words.put([list.calls.len() as u64]);
    list.calls.iter().for_each(|call| words.call(call));
    words.words
}

/// Words as a file has them: "least significant byte first".
pub fn bytes(words: &[u64]) -> Vec<u8> {
    words.iter().flat_map(|word| word.to_le_bytes()).collect()
}
