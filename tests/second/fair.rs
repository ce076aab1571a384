//! Schedules that deliver what is broadcast, in any order, and give turns.

use crate::frame::{Frame, Kind};
use crate::host::Move;
use crate::noise;
use crate::rng::Rng;
use crate::world::World;

/// How a schedule goes; the shares are in percent.
pub struct Manner {
    pub limit: u64,
    pub deliveries: u64,
    pub lies: u64,
    pub noise: u64,
    /// A host that mostly has to wait for its frames.
    pub slow: Option<u8>,
}

pub fn play(world: &mut World, rng: &mut Rng, manner: &Manner) {
    while world.events < manner.limit {
        let nothing_left = world.waiting.is_empty() && !someone_moves(world);
        if nothing_left && (manner.lies == 0 || world.is_over()) {
            break;
        }
        if rng.chance(manner.noise) {
            noise::stir(world, rng);
        } else if rng.chance(manner.lies) {
            lie(world, rng);
        } else if !world.waiting.is_empty() && rng.chance(manner.deliveries) {
            deliver(world, rng, manner.slow);
        } else {
            turn(world, rng);
        }
    }
}

fn someone_moves(world: &World) -> bool {
    world.honest().into_iter().any(|host| world.can_move(host))
}

fn deliver(world: &mut World, rng: &mut Rng, slow: Option<u8>) {
    let mut index = rng.index(&world.waiting);
    if Some(world.waiting[index].0) == slow && rng.chance(90) {
        index = rng.index(&world.waiting);
    }
    if let Some((host, frame)) = world.take_waiting(index) {
        world.deliver(host, frame);
    }
}

/// Mostly a turn that does something, sometimes an idle one.
fn turn(world: &mut World, rng: &mut Rng) {
    let honest = world.honest();
    if honest.is_empty() {
        return noise::stir(world, rng);
    }
    for _ in 0..8 {
        let host = rng.pick(&honest);
        let useful = match world.next_move(host) {
            Some(Move::Idle) => rng.chance(15),
            Some(_) => true,
            None => rng.chance(2),
        };
        if useful {
            return world.turn(host);
        }
    }
}

/// A liar's frame, mostly for the instance in which the receiver is.
fn lie(world: &mut World, rng: &mut Rng) {
    let (honest, liars) = (world.honest(), world.liars());
    if honest.is_empty() || liars.is_empty() {
        return noise::stir(world, rng);
    }
    let host = rng.pick(&honest);
    let mut at = world.record(host).at;
    if rng.chance(20) {
        at.round = rng.between(1, u64::from(at.round)) as u8;
        at.stage = rng.small(2);
    }
    let kind = rng.pick(&[Kind::Val, Kind::Aux]);
    world.deliver(
        host,
        Frame {
            kind,
            at,
            value: rng.pick(at.values()),
            sender: rng.pick(&liars),
        },
    );
}
