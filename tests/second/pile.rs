//! Several echoes due at once, so that their order shows.

use crate::frame::{Instance, Kind};
use crate::rng::Rng;
use crate::world::World;

/// Feeds one host the VAL frames of some instances and values, then gives it single
/// turns; after each, another host is offered all those echoes, and those that have
/// not been made yet are refused.
pub fn pile(world: &mut World, rng: &mut Rng) {
    let honest = world.honest();
    if honest.is_empty() {
        return;
    }
    let (host, other) = (rng.pick(&honest), rng.pick(&honest));
    let mut due = Vec::new();
    for _ in 0..rng.between(2, 5) {
        let last_round = u64::from(world.record(host).at.round + 1).min(16);
        let at = Instance {
            round: rng.between(1, last_round) as u8,
            phase: rng.between(1, 2) as u8,
            stage: rng.small(2),
        };
        let value = rng.pick(at.values());
        for sender in world.everyone() {
            if world.table.may_send(sender, Kind::Val, at, value) {
                world.deliver_val(host, sender, at, value);
            }
        }
        due.push((at, value));
    }
    for _ in 0..due.len() {
        world.turn(host);
        for &(at, value) in &due {
            world.deliver_val(other, host, at, value);
        }
    }
}
