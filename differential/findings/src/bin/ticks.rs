//! The table that the program `ticks` prints, made with the original's own `SimTime` and
//! `SimDuration` over u128. Its output is stored as crates/ticks_main/stdout.
use kairo_ecs_types::{SimDuration, SimTime};

fn flag(yes: bool) -> &'static str {
    if yes {
        "yes"
    } else {
        "no"
    }
}

fn main() {
    let edges = [0, u64::MAX as u128, 1 << 64, u128::MAX - 1, u128::MAX].map(SimTime::from_ticks);
    let tick = |t: SimTime| format!("{:032x}", t.ticks());
    for a in edges {
        let less = a
            .checked_sub(SimDuration::from_ticks(1))
            .unwrap_or(SimTime::ZERO);
        let none = SimDuration::from_ticks(a.ticks()) == SimDuration::ZERO;
        println!(
            "{} one less {} no duration {}",
            tick(a),
            tick(less),
            flag(none)
        );
        for b in edges {
            let sum = a.checked_add(SimDuration::from_ticks(b.ticks()));
            println!(
                "{} {} sum {} less {} equal {} lesser {} greater {}",
                tick(a),
                tick(b),
                sum.map_or("overflow".to_string(), tick),
                flag(a < b),
                flag(a == b),
                tick(a.min(b)),
                tick(a.max(b))
            );
        }
    }
}
