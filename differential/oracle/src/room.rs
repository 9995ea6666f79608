//! 17 and 18, which the original does not have: it is asked what it answers, and what it did is taken
//! back where document 01 refuses.
use crate::build::Runtime;
use crate::convert::{event, refusal};
use crate::Origin;
use kairo_ecs_pdes::{LpId, RemoteEvent};
use model::{Message, Refusal, MOST_PAYLOAD, MOST_PENDING};
use std::collections::BTreeMap;

/// `schedule_initial`, with 17 and 18 between 16 and 19.
pub fn schedule_initial(runtime: &mut Runtime, m: &Message) -> Result<(), (Refusal, Origin)> {
    let long = m.payload.length() > MOST_PAYLOAD;
    let full = runtime.pending_events() >= MOST_PENDING;
    if !long && !full {
        let answer = runtime.schedule_initial(event(m));
        return answer.map_err(|error| (refusal(error), Origin::Rust));
    }
    let kept = runtime.keep();
    let answer = runtime.schedule_initial(event(m)).map_err(refusal);
    runtime.put_back(kept);
    match answer {
        Ok(()) | Err(Refusal::EventSequenceOverflow) if long => {
            Err((Refusal::PayloadTooLong(m.payload.length()), Origin::Rules))
        }
        Ok(()) | Err(Refusal::EventSequenceOverflow) => Err((Refusal::QueueFull, Origin::Rules)),
        Err(earlier) => Err((earlier, Origin::Rust)),
    }
}

/// `execute_round`, with 18 behind 19.
pub fn execute_round(
    runtime: &mut Runtime,
    batches: BTreeMap<LpId, Vec<RemoteEvent>>,
    emissions: usize,
) -> Result<(), (Refusal, Origin)> {
    let full = runtime.pending_events() + emissions > MOST_PENDING;
    let kept = full.then(|| runtime.keep());
    let answer = runtime.call_execute_round(batches);
    match (answer, kept) {
        (Err(error), _) => Err((refusal(error), Origin::Rust)),
        (Ok(()), None) => Ok(()),
        (Ok(()), Some(kept)) => {
            runtime.put_back(kept);
            runtime.set_poisoned();
            Err((Refusal::QueueFull, Origin::Rules))
        }
    }
}
