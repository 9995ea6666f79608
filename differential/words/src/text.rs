//! Answers as text.
use model::{Answer, Counters, Entity, Event, Laid, Reading, Refusal, State, Value};

fn joined(parts: impl Iterator<Item = String>) -> String {
    parts.collect::<Vec<_>>().join(" ")
}

fn refusal(refusal: &Refusal) -> String {
    let number = refusal.number().to_string();
    let values = refusal.values().into_iter().map(|value| match value {
        Value::Count(count) => count.to_string(),
        Value::Tick(tick) => format!("{tick:x}"),
    });
    joined(["refused".to_string(), number].into_iter().chain(values))
}

fn counted(c: &Counters, used: u64) -> String {
    let Counters {
        handled,
        emitted,
        remote,
        rounds,
        null_messages,
        worker_count,
    } = c;
    format!("{handled} {emitted} {remote} {rounds} {null_messages} {worker_count} {used}")
}

fn reading(reading: &Reading) -> String {
    match reading {
        Reading::Gvt(gvt) => format!("gvt {gvt:x}"),
        Reading::Counted(counters, used) => format!("counters {}", counted(counters, *used)),
        Reading::Pending(count) => format!("pending {count}"),
        Reading::Earliest(tick) => format!("earliest {tick:x}"),
    }
}

fn answer(answer: &Answer) -> String {
    match answer {
        Answer::Accepted => "accepted".to_string(),
        Answer::Batch(_, gvt) => format!("batch {gvt:x}"),
        Answer::Advanced(gvt) => format!("advanced {gvt:x}"),
        Answer::Finished(gvt) => format!("finished {gvt:x}"),
        Answer::Committed(gvt) => format!("committed {gvt:x}"),
        Answer::Read(read) => reading(read),
        Answer::Planned(count) => format!("planned {count}"),
        Answer::Refused(refused) => refusal(refused),
    }
}

fn events(events: &[Event]) -> String {
    joined(events.iter().map(|e| {
        let payload: String = e
            .payload
            .bytes()
            .iter()
            .map(|b| format!("{b:02x}"))
            .collect();
        let Event {
            source,
            destination,
            tick,
            sequence,
            ..
        } = e;
        format!("{destination}:{tick:x}:{source}:{sequence}:{payload}")
    }))
}

fn sizes(s: &State) -> String {
    format!("{} {:x} {} {:x}", s.n, s.lookahead, s.next, s.gvt)
}

fn edges(s: &State) -> String {
    joined(s.edges.iter().map(|e| {
        format!(
            "{}:{}:{:x}:{:x}",
            e.source, e.destination, e.lookahead, e.bound
        )
    }))
}

fn ticks(ticks: &[u128]) -> String {
    joined(ticks.iter().map(|tick| format!("{tick:x}")))
}

fn stored(s: &State) -> String {
    s.stored.map_or("-".to_string(), |stored| {
        format!("{:x} {}", stored.horizon, stored.budget)
    })
}

fn flags(s: &State) -> String {
    let digits = [s.initial, s.running, s.poisoned];
    digits
        .map(|yes| if yes { '1' } else { '0' })
        .iter()
        .collect()
}

/// What a line begins with, and then everything that document 01 compares after a call, and A.2's record.
fn fields(first: String, c: &Counters, s: &State) -> String {
    let fields = [
        first,
        counted(c, s.used),
        sizes(s),
        edges(s),
        events(&s.pending),
        ticks(&s.horizons),
        ticks(&s.inbound),
        stored(s),
        events(&s.batch),
        flags(s),
    ];
    fields.join(" | ") + "\n"
}

/// The line of a call on a state.
pub fn line(given: &Answer, c: &Counters, s: &State) -> String {
    fields(answer(given), c, s)
}

/// The line of a state given whole.
pub fn given_line(c: &Counters, s: &State) -> String {
    fields("given".to_string(), c, s)
}

/// The line of a build that made this state.
pub fn built_line(c: &Counters, s: &State) -> String {
    line(&Answer::Accepted, c, s)
}

/// "A refused build has its answer alone".
pub fn refused_build_line(refused: &Answer) -> String {
    answer(refused) + "\n"
}

/// The line of a plan.
pub fn plan_line(laid: &Laid) -> String {
    let entity = |e: &Entity| format!("{}:{}", e.index, e.generation);
    let list = joined(laid.list.iter().map(entity));
    format!("{} | {list}\n", answer(&laid.answer))
}
