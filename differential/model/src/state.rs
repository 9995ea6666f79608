//! What a runtime is: its limits, events, edges, counters and state (State.antt).
use std::fmt;

/// "Limits: 1 to 64 processes, ids 0 to n-1; 512 edges; 512 pending events; payload 0 to 16 bytes;
/// 1,024 entities."
pub const MOST_PROCESSES: u64 = 64;
pub const MOST_EDGES: usize = 512;
pub const MOST_PENDING: usize = 512;
pub const MOST_PAYLOAD: u64 = 16;
pub const MOST_ENTITIES: usize = 1024;

/// The largest tick.
pub const TOP: u128 = u128::MAX;

/// The largest count, and the largest next sequence number.
pub const MOST: u64 = u64::MAX;

/// A length and up to 16 bytes. Bytes behind the length are zero; a length above 16 is refused by
/// every call, so its bytes do not matter.
#[derive(Clone, Copy, Default, Eq, PartialEq)]
pub struct Payload {
    length: u64,
    bytes: [u8; 16],
}

impl Payload {
    pub fn new(length: u64, mut bytes: [u8; 16]) -> Self {
        for (at, byte) in bytes.iter_mut().enumerate() {
            if at as u64 >= length {
                *byte = 0;
            }
        }
        Self { length, bytes }
    }

    /// As many of these bytes as there is room for.
    pub fn of(given: &[u8]) -> Self {
        let mut bytes = [0; 16];
        for (to, from) in bytes.iter_mut().zip(given) {
            *to = *from;
        }
        Self::new(given.len() as u64, bytes)
    }

    pub fn length(&self) -> u64 {
        self.length
    }

    /// Those within the length.
    pub fn bytes(&self) -> &[u8] {
        &self.bytes[..self.length.min(MOST_PAYLOAD) as usize]
    }
}

/// Its length and its bytes in hexadecimal.
impl fmt::Debug for Payload {
    fn fmt(&self, f: &mut fmt::Formatter<'_>) -> fmt::Result {
        write!(f, "{}:", self.length)?;
        let mut bytes = self.bytes().iter();
        bytes.try_for_each(|byte| write!(f, "{byte:02x}"))
    }
}

/// An event before it is accepted.
#[derive(Clone, Copy, Debug, Eq, PartialEq)]
pub struct Message {
    pub source: u32,
    pub destination: u32,
    pub tick: u128,
    pub payload: Payload,
}

#[derive(Clone, Copy, Debug, Eq, PartialEq)]
pub struct Event {
    pub source: u32,
    pub destination: u32,
    pub tick: u128,
    pub sequence: u64,
    pub payload: Payload,
}

impl Message {
    pub fn numbered(self, sequence: u64) -> Event {
        Event {
            source: self.source,
            destination: self.destination,
            tick: self.tick,
            sequence,
            payload: self.payload,
        }
    }
}

impl Event {
    /// The event without its sequence number.
    pub fn message(self) -> Message {
        Message {
            source: self.source,
            destination: self.destination,
            tick: self.tick,
            payload: self.payload,
        }
    }
}

/// "Each edge has a bound", and A.4: "Each edge gets its own lookahead".
#[derive(Clone, Copy, Debug, Eq, PartialEq)]
pub struct Edge {
    pub source: u32,
    pub destination: u32,
    pub lookahead: u128,
    pub bound: u128,
}

#[derive(Clone, Copy, Debug, Default, Eq, PartialEq)]
pub struct Counters {
    pub handled: u64,
    pub emitted: u64,
    pub remote: u64,
    pub rounds: u64,
    pub null_messages: u64,
    pub worker_count: u64,
}

/// The stored horizon and budget.
#[derive(Clone, Copy, Debug, Eq, PartialEq)]
pub struct Stored {
    pub horizon: u128,
    pub budget: u64,
}

#[derive(Clone, Debug, Eq, PartialEq)]
pub struct State {
    pub n: u64,
    pub lookahead: u128,
    pub edges: Vec<Edge>,
    pub pending: Vec<Event>,
    pub next: u64,
    pub horizons: Vec<u128>,
    /// A.2's record: "each process's least inbound bound".
    pub inbound: Vec<u128>,
    pub gvt: u128,
    pub stored: Option<Stored>,
    pub used: u64,
    pub batch: Vec<Event>,
    pub initial: bool,
    pub running: bool,
    pub poisoned: bool,
}

impl State {
    /// The processes' ids. A state that is not foreign has at most 64.
    pub fn processes(&self) -> std::ops::Range<u32> {
        0..self.n.min(MOST_PROCESSES) as u32
    }
}
