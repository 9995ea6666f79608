//! Plan files: document 02, A.1, its first half, with A.4's edges.
use model::{Message, Payload, Setup};

/// "38 file above 16,384 bytes, checked first"
pub const MOST_BYTES: usize = 16_384;

/// An initial event or an emission. A file's payload has up to 31 bytes.
#[derive(Clone, Debug, Eq, PartialEq)]
pub struct Event {
    pub source: u32,
    pub destination: u32,
    pub tick: u128,
    pub payload: Vec<u8>,
}

#[derive(Clone, Copy, Debug, Eq, PartialEq)]
pub struct Edge {
    pub source: u32,
    pub destination: u32,
    pub lookahead: u128,
}

#[derive(Clone, Debug, Default, Eq, PartialEq)]
pub struct Plan {
    pub n: u64,
    pub lookahead: u128,
    pub horizon: u128,
    pub budget: u64,
    pub edges: Vec<Edge>,
    pub initial: Vec<Event>,
    pub replies: Vec<(u32, Vec<Event>)>,
}

/// Why bytes are no plan.
#[derive(Clone, Copy, Debug, Eq, PartialEq)]
pub enum Unread {
    Malformed = 37,
    TooLarge = 38,
}

impl Event {
    /// As the original and the model take it. Of a payload above 16 its length counts alone.
    pub fn message(&self) -> Message {
        Message {
            source: self.source,
            destination: self.destination,
            tick: self.tick,
            payload: Payload::of(&self.payload),
        }
    }
}

/// Bits, most significant first.
struct Bits<'a> {
    bytes: &'a [u8],
    at: usize,
}

impl Bits<'_> {
    fn bit(&mut self) -> Result<bool, Unread> {
        let byte = self.bytes.get(self.at / 8).ok_or(Unread::Malformed)?;
        let bit = byte >> (7 - self.at % 8) & 1;
        self.at += 1;
        Ok(bit == 1)
    }

    fn field(&mut self, width: usize) -> Result<u128, Unread> {
        (0..width).try_fold(0, |value, _| Ok(value << 1 | u128::from(self.bit()?)))
    }

    fn id(&mut self) -> Result<u32, Unread> {
        Ok(self.field(6)? as u32)
    }

    fn route(&mut self) -> Result<(u32, u32), Unread> {
        Ok((self.id()?, self.id()?))
    }

    /// "The file's edges gain 128 bits, behind the destination"
    fn edge(&mut self) -> Result<Edge, Unread> {
        let (source, destination) = self.route()?;
        Ok(Edge {
            source,
            destination,
            lookahead: self.field(128)?,
        })
    }

    fn event(&mut self) -> Result<Event, Unread> {
        let (source, destination) = self.route()?;
        let tick = self.field(128)?;
        let length = self.field(5)?;
        let payload = (0..length).map(|_| Ok(self.field(8)? as u8));
        let payload = payload.collect::<Result<_, _>>()?;
        Ok(Event {
            source,
            destination,
            tick,
            payload,
        })
    }

    fn reply(&mut self) -> Result<(u32, Vec<Event>), Unread> {
        Ok((self.id()?, self.list(Self::event)?))
    }

    fn list<T>(&mut self, one: fn(&mut Self) -> Result<T, Unread>) -> Result<Vec<T>, Unread> {
        let count = self.field(10)?;
        (0..count).map(|_| one(self)).collect()
    }

    /// "zero bits to the byte's end"
    fn end(mut self) -> Result<(), Unread> {
        while self.at % 8 != 0 {
            if self.bit()? {
                return Err(Unread::Malformed);
            }
        }
        if self.at / 8 < self.bytes.len() {
            return Err(Unread::Malformed);
        }
        Ok(())
    }
}

pub fn decode(bytes: &[u8]) -> Result<Plan, Unread> {
    if bytes.len() > MOST_BYTES {
        return Err(Unread::TooLarge);
    }
    let mut bits = Bits { bytes, at: 0 };
    let plan = Plan {
        n: bits.field(7)? as u64,
        lookahead: bits.field(128)?,
        horizon: bits.field(128)?,
        budget: bits.field(64)? as u64,
        edges: bits.list(Bits::edge)?,
        initial: bits.list(Bits::event)?,
        replies: bits.list(Bits::reply)?,
    };
    bits.end()?;
    Ok(plan)
}

/// The bits of a file so far, each as a truth value.
#[derive(Default)]
struct Written(Vec<bool>);

impl Written {
    fn field(&mut self, width: usize, value: u128) {
        assert!(width == 128 || value >> width == 0, "a field is too wide");
        self.0
            .extend((0..width).rev().map(|at| value >> at & 1 == 1));
    }

    fn route(&mut self, source: u32, destination: u32) {
        self.field(6, u128::from(source));
        self.field(6, u128::from(destination));
    }

    fn events(&mut self, events: &[Event]) {
        self.field(10, events.len() as u128);
        for event in events {
            self.route(event.source, event.destination);
            self.field(128, event.tick);
            self.field(5, event.payload.len() as u128);
            for &byte in &event.payload {
                self.field(8, u128::from(byte));
            }
        }
    }

    fn bytes(&self) -> Vec<u8> {
        let byte = |bits: &[bool]| {
            (0..8).fold(0, |byte, at| {
                byte << 1 | u8::from(bits.get(at) == Some(&true))
            })
        };
        self.0.chunks(8).map(byte).collect()
    }
}

/// The file of a plan, and how many bits of its last byte are padding.
pub fn encode(plan: &Plan) -> (Vec<u8>, usize) {
    let mut to = Written::default();
    to.field(7, u128::from(plan.n));
    to.field(128, plan.lookahead);
    to.field(128, plan.horizon);
    to.field(64, u128::from(plan.budget));
    to.field(10, plan.edges.len() as u128);
    for edge in &plan.edges {
        to.route(edge.source, edge.destination);
        to.field(128, edge.lookahead);
    }
    to.events(&plan.initial);
    to.field(10, plan.replies.len() as u128);
    for (process, emissions) in &plan.replies {
        to.field(6, u128::from(*process));
        to.events(emissions);
    }
    let bytes = to.bytes();
    let padding = 8 * bytes.len() - to.0.len();
    (bytes, padding)
}

impl Plan {
    /// "Equality with the Rust covers runtimes whose edges all carry the plan's lookahead"
    pub fn uniform(&self) -> bool {
        self.edges.iter().all(|e| e.lookahead == self.lookahead)
    }

    /// The lookahead that all edges carry, if it is one and not the plan's. It is all that a run reads
    /// of lookaheads.
    pub fn carried(&self) -> Option<u128> {
        let first = self.edges.first()?.lookahead;
        let one = self.edges.iter().all(|e| e.lookahead == first);
        (one && first != self.lookahead).then_some(first)
    }

    /// The least edge lookahead, "or the plan's if there is no edge".
    pub fn least_lookahead(&self) -> u128 {
        let each = self.edges.iter().map(|e| e.lookahead);
        each.min().unwrap_or(self.lookahead)
    }

    /// What the original's build takes of a plan whose edges carry the plan's lookahead.
    ///
    /// "Every process has a row, and so has any other source of an edge". Edges of one source that
    /// stand side by side make a row; where sources fall, rows do not rise, and build says 5.
    pub fn setup(&self) -> Setup {
        let ids = 0..self.n as u32;
        let mut rows: Vec<(u32, u64)> = vec![];
        for edge in &self.edges {
            match rows.last_mut() {
                Some(row) if row.0 == edge.source => row.1 += 1,
                _ => rows.push((edge.source, 1)),
            }
        }
        let rowless = ids.clone().filter(|id| rows.iter().all(|row| row.0 != *id));
        let empty: Vec<(u32, u64)> = rowless.map(|id| (id, 0)).collect();
        for row in empty {
            let place = rows.iter().position(|other| other.0 > row.0);
            rows.insert(place.unwrap_or(rows.len()), row);
        }
        Setup {
            n: self.n,
            lookahead: self.lookahead,
            ids: ids.collect(),
            sources: rows.iter().map(|row| row.0).collect(),
            counts: rows.iter().map(|row| row.1).collect(),
            destinations: self.edges.iter().map(|edge| edge.destination).collect(),
            lookaheads: model::lookahead_words(self.edges.iter().map(|edge| edge.lookahead)),
        }
    }

    /// "39 floor(horizon / lookahead) above 65,536", "in 39, read the least edge lookahead, or the
    /// plan's if there is no edge". A lookahead of 0 never comes here: build refuses it.
    pub fn too_long(&self) -> bool {
        self.horizon / self.least_lookahead() > 65_536
    }

    /// What process p answers with, in turn.
    pub fn replies_of(&self, p: u32) -> impl Iterator<Item = &[Event]> {
        let mine = self.replies.iter().filter(move |reply| reply.0 == p);
        mine.map(|reply| &reply.1[..])
    }
}
