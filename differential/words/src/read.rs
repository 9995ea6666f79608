//! Lines of answers, read again.
use model::{Event, Payload};

/// The line of a build that was accepted, or of a call on a state, field by field.
#[derive(Clone, Copy, Debug, Eq, PartialEq)]
pub struct Line<'a> {
    pub answer: &'a str,
    pub counters: &'a str,
    pub sizes: &'a str,
    pub edges: &'a str,
    pub pending: &'a str,
    pub horizons: &'a str,
    pub inbound: &'a str,
    pub stored: &'a str,
    pub batch: &'a str,
    pub flags: &'a str,
}

fn hexadecimal(digits: &str) -> Option<u128> {
    u128::from_str_radix(digits, 16).ok()
}

fn payload(digits: &str) -> Option<Payload> {
    let byte = |at: usize| u8::from_str_radix(digits.get(at..at + 2)?, 16).ok();
    let bytes: Option<Vec<u8>> = (0..digits.len()).step_by(2).map(byte).collect();
    Some(Payload::of(&bytes?))
}

/// `destination:tick:source:sequence:payload`
fn event(text: &str) -> Option<Event> {
    let parts: Vec<&str> = text.split(':').collect();
    let [destination, tick, source, sequence, bytes] = parts[..] else {
        return None;
    };
    Some(Event {
        source: source.parse().ok()?,
        destination: destination.parse().ok()?,
        tick: hexadecimal(tick)?,
        sequence: sequence.parse().ok()?,
        payload: payload(bytes)?,
    })
}

impl<'a> Line<'a> {
    /// None if the line is no such line. It ends with its line feed.
    pub fn of(line: &'a str) -> Option<Self> {
        let fields: Vec<&str> = line.strip_suffix('\n')?.split(" | ").collect();
        let [answer, counters, sizes, edges, pending, horizons, inbound, stored, batch, flags] =
            fields[..]
        else {
            return None;
        };
        Some(Self {
            answer,
            counters,
            sizes,
            edges,
            pending,
            horizons,
            inbound,
            stored,
            batch,
            flags,
        })
    }

    /// The first word of the answer.
    pub fn name(&self) -> &'a str {
        self.answer.split(' ').next().unwrap_or("")
    }

    /// The GVT that the answer of a step or a hand back carries.
    pub fn gvt(&self) -> Option<u128> {
        let (name, value) = self.answer.split_once(' ')?;
        let carries = ["batch", "advanced", "finished", "committed"].contains(&name);
        carries.then(|| hexadecimal(value))?
    }

    /// The events in hand.
    pub fn events(&self) -> Option<Vec<Event>> {
        let events = self.batch.split(' ').filter(|text| !text.is_empty());
        events.map(event).collect()
    }
}
