//! Plan: document 01, "Reads and plan", rows 1, 2, 34, 36, 35 (Plan.antt). It is
//! `PartitionPlan::from_entities`.
use crate::answers::{Answer, Entity, Refusal};
use crate::state::{MOST_ENTITIES, MOST_PROCESSES};
use crate::variant::{Rules, Variant};

/// How many places the lent list has; each holds 0:0 before the call.
pub type Lent = u64;

/// What plan gives: its answer and the lent list after it.
#[derive(Clone, Debug, Eq, PartialEq)]
pub struct Laid {
    pub answer: Answer,
    pub list: Vec<Entity>,
}

impl Rules {
    /// "Entities are sorted by (index, generation)".
    fn sorted(self, given: &[Entity]) -> Vec<Entity> {
        let mut sorted = given.to_vec();
        if self.wrong(Variant::PlanByGeneration) {
            sorted.sort_by_key(|e| (e.generation, e.index));
        } else {
            sorted.sort_by_key(|e| (e.index, e.generation));
        }
        sorted
    }

    /// 35: "entity twice": the least such entity.
    fn twice(self, sorted: &[Entity]) -> Option<Entity> {
        let mut pairs = sorted.windows(2).filter(|pair| pair[0] == pair[1]);
        let pair = if self.wrong(Variant::GreatestEntityTwice) {
            pairs.next_back()
        } else {
            pairs.next()
        };
        pair.map(|pair| pair[0])
    }

    /// 1, 2, 34, 36.
    fn plan_rows(self, n: u64, lookahead: u128, given: usize, lent: Lent) -> Option<Refusal> {
        if n == 0 || n > MOST_PROCESSES {
            return Some(Refusal::InvalidPartitionCount(n));
        }
        if lookahead == 0 {
            return Some(Refusal::InvalidLookahead);
        }
        if given == 0 {
            return Some(Refusal::EmptyPartitionEntities);
        }
        (given > MOST_ENTITIES || lent < given as u64).then_some(Refusal::TooManyEntities)
    }

    /// "sorted .. into the lent list"; "Places behind them keep their contents."
    pub fn plan(self, n: u64, lookahead: u128, given: &[Entity], lent: Lent) -> Laid {
        let mut list = vec![Entity::default(); lent as usize];
        if let Some(refusal) = self.plan_rows(n, lookahead, given.len(), lent) {
            let answer = Answer::Refused(refusal);
            return Laid { answer, list };
        }
        let sorted = self.sorted(given);
        let twice = self.twice(&sorted);
        if twice.is_none() || self.wrong(Variant::PlanWritesBeforeTwice) {
            for (place, entity) in list.iter_mut().zip(&sorted) {
                *place = *entity;
            }
        }
        let answer = match twice {
            Some(entity) => Answer::Refused(Refusal::DuplicatePartitionEntity(entity)),
            None => Answer::Planned(given.len() as u64),
        };
        Laid { answer, list }
    }

    /// "the i-th, from 0, belongs to process i mod n"
    pub fn owner(self, n: u64, i: u64) -> u64 {
        if self.wrong(Variant::OwnersFromOne) {
            return (i + 1) % n.max(1);
        }
        i % n.max(1)
    }
}
