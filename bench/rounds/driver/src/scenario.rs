//! What is run: a graph, its initial events, and what a handler does.

/// Ticks of lookahead. An emission is as far ahead, and up to so many ticks more.
pub const LOOKAHEAD: u64 = 16;

/// A tick that no run comes to.
const FAR: u64 = 1 << 62;

#[derive(Clone)]
pub struct Scenario {
    pub name: String,
    /// The neighbours of each process.
    pub rows: Vec<Vec<u32>>,
    /// Source, destination and tick.
    pub initial: Vec<(u32, u32, u64)>,
    pub horizon: u64,
}

impl Scenario {
    fn new(name: &str, rows: Vec<Vec<u32>>) -> Self {
        Self {
            name: name.to_string(),
            rows,
            initial: vec![],
            horizon: 0,
        }
    }

    /// Each process leads to the next `degree` ones, and has sent `events`.
    pub fn ring(name: &str, n: u32, degree: u32, events: usize) -> Self {
        let row = |p| (1..=degree).map(|k| (p + k) % n).collect();
        let mut made = Self::new(name, (0..n).map(row).collect());
        made.send(n, events);
        made
    }

    /// Each process leads to the other of its pair; those of the first pair have sent `events`.
    pub fn pairs(name: &str, n: u32, events: usize) -> Self {
        let mut made = Self::new(name, (0..n).map(|p| vec![p ^ 1]).collect());
        made.send(2, events);
        made
    }

    /// Two processes; one event circulates, and all others are too far ahead to be handled.
    pub fn waiting(name: &str, pending: u32) -> Self {
        let mut made = Self::new(name, vec![vec![1], vec![0]]);
        made.initial.push((0, 1, 1));
        let far = |k| (k % 2, 1 - k % 2, FAR + u64::from(k));
        made.initial.extend((1..pending).map(far));
        made
    }

    fn send(&mut self, senders: u32, events: usize) {
        let mut delay = Delay(7);
        for p in 0..senders {
            let row = &self.rows[p as usize];
            for k in 0..events {
                let (to, at) = (row[k % row.len()], delay.next());
                self.initial.push((p, to, at));
            }
        }
    }

    pub fn until(&self, horizon: u64) -> Self {
        Self {
            horizon,
            ..self.clone()
        }
    }

    pub fn edges(&self) -> usize {
        self.rows.iter().map(Vec::len).sum()
    }
}

/// Delays that look random (Marsaglia's xorshift): the lookahead, and up to as much again.
pub struct Delay(pub u64);

impl Delay {
    pub fn next(&mut self) -> u64 {
        self.0 ^= self.0 << 13;
        self.0 ^= self.0 >> 7;
        self.0 ^= self.0 << 17;
        LOOKAHEAD + self.0 % LOOKAHEAD
    }
}

/// What is compared: handled, emitted, remote, rounds, null_messages, worker_count, GVT in two words, pending.
pub type Ended = [u64; 9];

pub const HANDLED: usize = 0;
pub const ROUNDS: usize = 3;

/// The whole list of scenarios of the table.
pub fn table() -> Vec<Scenario> {
    let sizes = [
        (2, 1),
        (8, 1),
        (8, 4),
        (8, 7),
        (16, 1),
        (16, 4),
        (16, 8),
        (64, 1),
        (64, 4),
        (64, 8),
    ];
    let ring = |&(n, degree)| Scenario::ring(&format!("{n}x{degree}"), n, degree, 4);
    let mut all: Vec<Scenario> = sizes.iter().map(ring).collect();
    all.push(Scenario::ring("full", 64, 8, 8));
    all
}

/// Two busy processes among more and more idle ones.
pub fn idle() -> Vec<Scenario> {
    let among = |&n: &u32| Scenario::pairs(&format!("busy2of{n}"), n, 4);
    [2, 8, 16, 64].iter().map(among).collect()
}

/// One event that circulates, and more and more that wait.
pub fn waiting() -> Vec<Scenario> {
    let with = |&k: &u32| Scenario::waiting(&format!("pending{k}"), k);
    [1, 8, 64, 512].iter().map(with).collect()
}
