//! Lists of calls from a file of words.
use crate::encode::STATE;
use model::{Call, Emission, Entity, List, Message, Payload, Setup};

/// A list of more things than this is taken for something that cannot be decoded, and so are more
/// places for a plan.
const MOST: u64 = 4096;

/// Lookaheads have two words each.
const MOST_LOOKAHEADS: u64 = 2 * MOST;

struct Words<'a>(&'a [u8]);

impl Words<'_> {
    fn word(&mut self) -> Option<u64> {
        let (word, rest) = self.0.split_first_chunk::<8>()?;
        self.0 = rest;
        Some(u64::from_le_bytes(*word))
    }

    fn wide(&mut self) -> Option<u128> {
        Some(u128::from(self.word()?) << 64 | u128::from(self.word()?))
    }

    /// "of an id word the lower half counts"
    fn id(&mut self) -> Option<u32> {
        Some(self.word()? as u32)
    }

    /// A number of things, then the things.
    fn many<T>(&mut self, one: impl Fn(&mut Self) -> Option<T>) -> Option<Vec<T>> {
        self.up_to(MOST, one)
    }

    fn up_to<T>(&mut self, most: u64, one: impl Fn(&mut Self) -> Option<T>) -> Option<Vec<T>> {
        let count = self.word().filter(|count| *count <= most)?;
        let mut many = vec![];
        for _ in 0..count {
            many.push(one(self)?);
        }
        Some(many)
    }

    fn message(&mut self) -> Option<Message> {
        Some(Message {
            source: self.id()?,
            destination: self.id()?,
            tick: self.wide()?,
            payload: Payload::new(self.word()?, self.wide()?.to_be_bytes()),
        })
    }

    fn emission(&mut self) -> Option<Emission> {
        Some(Emission {
            emitter: self.id()?,
            message: self.message()?,
        })
    }

    fn entity(&mut self) -> Option<Entity> {
        Some(Entity {
            index: self.word()?,
            generation: self.word()?,
        })
    }

    /// None for a state given whole: the original is asked about builds alone.
    fn setup(&mut self) -> Option<Setup> {
        let n = self.word().filter(|n| *n != STATE)?;
        let lookahead = self.wide()?;
        let ids = self.many(Self::id)?;
        let rows = self.many(|words| Some((words.id()?, words.word()?)))?;
        let (sources, counts) = rows.into_iter().unzip();
        Some(Setup {
            n,
            lookahead,
            ids,
            sources,
            counts,
            destinations: self.many(Self::id)?,
            lookaheads: self.up_to(MOST_LOOKAHEADS, Self::word)?,
        })
    }

    fn plan(&mut self) -> Option<Call> {
        let (n, lookahead, lent) = (self.word()?, self.wide()?, self.word()?);
        let entities = self.many(Self::entity)?;
        (lent <= MOST).then_some(Call::Plan {
            n,
            lookahead,
            lent,
            entities,
        })
    }

    fn call(&mut self) -> Option<Call> {
        Some(match self.word()? {
            0 => Call::AddInitial(self.message()?),
            1 => Call::Begin {
                horizon: self.wide()?,
                budget: self.word()?,
            },
            2 => Call::Step,
            3 => Call::HandBack {
                mask: self.word()?,
                emissions: self.many(Self::emission)?,
            },
            4 => Call::ReadGvt,
            5 => Call::ReadCounters,
            6 => Call::ReadPending,
            7 => Call::ReadEarliest,
            8 => self.plan()?,
            _ => return None,
        })
    }
}

/// The lists of a file, up to a state given whole. "What cannot be decoded .. ends the file: the list at hand is carried out up
/// to the last whole call."
pub fn decode(bytes: &[u8]) -> Vec<List> {
    let mut words = Words(bytes);
    let mut lists = vec![];
    while let Some(setup) = words.setup() {
        let mut list = List {
            setup,
            odd: None,
            calls: vec![],
        };
        let count = words.word();
        for _ in 0..count.unwrap_or(0) {
            let Some(call) = words.call() else {
                lists.push(list);
                return lists;
            };
            list.calls.push(call);
        }
        lists.push(list);
    }
    lists
}
