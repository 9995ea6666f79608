//! `PartitionPlan::from_entities` as document 01's plan.
use crate::Origin;
use kairo_ecs_pdes::{PartitionPlan, PdesError};
use kairo_ecs_types::{EntityId, SimDuration};
use model::{Answer, Entity, Laid, Refusal, MOST_ENTITIES, MOST_PROCESSES};

/// What plan gives, who gave it, and the owner of each entity.
#[derive(Clone, Debug)]
pub struct Planned {
    pub laid: Laid,
    pub owners: Vec<u64>,
    pub origin: Origin,
}

fn refused(refusal: Refusal, lent: u64, origin: Origin) -> Planned {
    Planned {
        laid: Laid {
            answer: Answer::Refused(refusal),
            list: vec![Entity::default(); lent as usize],
        },
        owners: vec![],
        origin,
    }
}

/// An entity of the original, whose generations have 32 bits.
fn entity_id(entity: &Entity) -> Option<EntityId> {
    let generation = u32::try_from(entity.generation).ok()?;
    Some(EntityId::new(entity.index, generation))
}

fn entity(id: EntityId) -> Entity {
    Entity {
        index: id.index,
        generation: u64::from(id.generation),
    }
}

fn refusal(error: PdesError, n: u64) -> Refusal {
    match error {
        PdesError::InvalidPartitionCount => Refusal::InvalidPartitionCount(n),
        PdesError::InvalidPartitionLookahead => Refusal::InvalidLookahead,
        PdesError::EmptyPartitionEntities => Refusal::EmptyPartitionEntities,
        PdesError::DuplicatePartitionEntity(twice) => {
            Refusal::DuplicatePartitionEntity(entity(twice))
        }
        other => panic!("document 01 has no refusal for {other:?}"),
    }
}

/// The entities in the order of the plan: the i-th is the next one of segment i mod n.
fn laid_out(plan: &PartitionPlan, count: usize) -> (Vec<Entity>, Vec<u64>) {
    let segments = plan.segments();
    let ids = (0..count).filter_map(|i| {
        let segment = segments.get(i % segments.len())?;
        segment.entities.get(i / segments.len()).copied()
    });
    let owner = |id| plan.owner_of(id).map_or(u64::MAX, |lp| u64::from(lp.0));
    ids.map(|id| (entity(id), owner(id))).unzip()
}

/// 36 stands between 34 and 35, and the original does not have it. A generation above 32 bits it does
/// not have either; none is generated.
pub fn plan(n: u64, lookahead: u128, given: &[Entity], lent: u64) -> Planned {
    if n > MOST_PROCESSES {
        return refused(Refusal::InvalidPartitionCount(n), lent, Origin::Rules);
    }
    let too_many = given.len() > MOST_ENTITIES || lent < given.len() as u64;
    let ids: Vec<EntityId> = given.iter().filter_map(entity_id).collect();
    let lookahead = SimDuration::from_ticks(lookahead);
    let made = PartitionPlan::from_entities(n as u32, lookahead, ids);
    match made.map_err(|error| refusal(error, n)) {
        Ok(_) | Err(Refusal::DuplicatePartitionEntity(_)) if too_many => {
            refused(Refusal::TooManyEntities, lent, Origin::Rules)
        }
        Err(refusal) => refused(refusal, lent, Origin::Rust),
        Ok(plan) => {
            let (mut list, owners) = laid_out(&plan, given.len());
            list.resize(lent as usize, Entity::default());
            let answer = Answer::Planned(given.len() as u64);
            Planned {
                laid: Laid { answer, list },
                owners,
                origin: Origin::Rust,
            }
        }
    }
}
