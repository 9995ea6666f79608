//! A plan file, read as a host in Rust would read it: 38, then 37.
use kairo_ecs_pdes_in_place::{LpId, RemoteEvent};
use kairo_ecs_types::SimTime;

pub struct Plan {
    pub n: u32,
    pub lookahead: u128,
    pub horizon: u128,
    pub budget: u64,
    /// Source, destination, lookahead.
    pub edges: Vec<(LpId, LpId, u128)>,
    pub initial: Vec<RemoteEvent>,
    pub replies: Vec<(LpId, Vec<RemoteEvent>)>,
}

const MOST_BYTES: usize = 16_384;

struct Bits<'a> {
    bytes: &'a [u8],
    at: usize,
}

impl Bits<'_> {
    /// A byte at a time: what is left of the first, whole ones, what is needed of the last.
    fn field(&mut self, width: usize) -> Option<u128> {
        let end = self.at + width;
        if end > 8 * self.bytes.len() {
            return None;
        }
        let mut value = 0;
        while self.at < end {
            let (byte, from) = (self.bytes[self.at / 8], self.at % 8);
            let take = (8 - from).min(end - self.at);
            let part = u32::from(byte) >> (8 - from - take) & ((1 << take) - 1);
            value = value << take | u128::from(part);
            self.at += take;
        }
        Some(value)
    }

    fn id(&mut self) -> Option<LpId> {
        Some(LpId(self.field(6)? as u32))
    }

    fn edge(&mut self) -> Option<(LpId, LpId, u128)> {
        Some((self.id()?, self.id()?, self.field(128)?))
    }

    fn event(&mut self) -> Option<RemoteEvent> {
        let (source_lp, dest_lp) = (self.id()?, self.id()?);
        let tick = SimTime::from_ticks(self.field(128)?);
        let length = self.field(5)?;
        let event_payload = (0..length).map(|_| Some(self.field(8)? as u8));
        let event_payload = event_payload.collect::<Option<_>>()?;
        Some(RemoteEvent {
            source_lp,
            dest_lp,
            tick,
            event_payload,
        })
    }

    fn reply(&mut self) -> Option<(LpId, Vec<RemoteEvent>)> {
        Some((self.id()?, self.list(Self::event)?))
    }

    fn list<T>(&mut self, one: fn(&mut Self) -> Option<T>) -> Option<Vec<T>> {
        let count = self.field(10)?;
        let mut all = Vec::with_capacity(count as usize);
        for _ in 0..count {
            all.push(one(self)?);
        }
        Some(all)
    }
}

fn plan(bytes: &[u8]) -> Option<Plan> {
    let mut bits = Bits { bytes, at: 0 };
    let plan = Plan {
        n: bits.field(7)? as u32,
        lookahead: bits.field(128)?,
        horizon: bits.field(128)?,
        budget: bits.field(64)? as u64,
        edges: bits.list(Bits::edge)?,
        initial: bits.list(Bits::event)?,
        replies: bits.list(Bits::reply)?,
    };
    let spare = 8 * bytes.len() - bits.at;
    (spare < 8 && bits.field(spare)? == 0).then_some(plan)
}

pub fn read(bytes: &[u8]) -> Result<Plan, u64> {
    if bytes.len() > MOST_BYTES {
        return Err(38);
    }
    plan(bytes).ok_or(37)
}
