//! Events that break rules, alone and several at once, and harmless repeats.

use crate::file::event_bytes;
use crate::frame::{Fields, Frame, Instance, Kind, Value, VALUES};
use crate::rng::Rng;
use crate::world::World;

/// Adds one such event.
pub fn stir(world: &mut World, rng: &mut Rng) {
    let event = match rng.below(10) {
        0 => odd_turn(world, rng),
        1 | 2 => repeat(world, rng),
        3 => other_aux(world, rng),
        4 => [rng.byte(), rng.byte(), rng.byte()],
        _ => faulty_delivery(world, rng),
    };
    world.event(event);
}

/// A host number of one of the classes: honest, lying, broken, outside.
fn some_host(world: &World, rng: &mut Rng) -> u8 {
    let n = world.sizes().n;
    let classes = [
        world.honest(),
        world.honest(),
        world.liars(),
        world.broken(),
        (n..32).collect(),
    ];
    let filled: Vec<&Vec<u8>> = classes.iter().filter(|class| !class.is_empty()).collect();
    let class = rng.pick(&filled);
    rng.pick(class)
}

fn odd_turn(world: &World, rng: &mut Rng) -> [u8; 3] {
    let host = some_host(world, rng);
    let word = if rng.chance(40) {
        rng.between(1, 65535) as u16
    } else {
        0
    };
    let spare = u8::from(rng.chance(20));
    event_bytes(rng.pick(&[2, 2, 2, 3]), spare, host, word)
}

/// Where the host is, or has held something, or anywhere.
fn some_instance(world: &World, rng: &mut Rng, host: u8) -> Instance {
    if host < world.sizes().n && rng.chance(80) {
        let held: Vec<Instance> = world.table.host(host).held.keys().copied().collect();
        return if held.is_empty() || rng.chance(50) {
            world.record(host).at
        } else {
            rng.pick(&held)
        };
    }
    Instance {
        round: rng.between(1, 16) as u8,
        phase: rng.between(1, 2) as u8,
        stage: rng.small(2),
    }
}

/// A delivery with each of the faults of a frame in about one case out of four.
fn faulty_delivery(world: &World, rng: &mut Rng) -> [u8; 3] {
    let n = world.sizes().n;
    let host = some_host(world, rng);
    let at = some_instance(world, rng, host);
    let kind = rng.pick(&[Kind::Val, Kind::Aux]);
    let mut fields = Frame {
        kind,
        at,
        value: rng.pick(at.values()),
        sender: rng.small(n),
    }
    .fields();
    if rng.chance(25) {
        fields.version = 1;
    }
    if rng.chance(25) {
        fields.round = rng.pick(&[0, 17, 18, 24, 31]);
    }
    if rng.chance(25) {
        spoil_value(&mut fields, rng);
    }
    if n < 32 && rng.chance(25) {
        fields.sender = rng.between(u64::from(n), 31) as u8;
    }
    let event_kind = rng.pick(&[0, 0, 0, 0, 0, 0, 0, 0, 1, 3]);
    event_bytes(event_kind, u8::from(rng.chance(7)), host, fields.word())
}

fn spoil_value(fields: &mut Fields, rng: &mut Rng) {
    if rng.chance(50) {
        fields.value = 3;
    } else {
        fields.stage = 0;
        fields.value = 2;
    }
}

/// Everything that a host has recorded.
fn recorded(world: &World, host: u8) -> Vec<Frame> {
    let mut frames = Vec::new();
    for (&at, held) in &world.table.host(host).held {
        for value in VALUES {
            let senders = held.val_senders(value).iter();
            frames.extend(senders.map(|&sender| Frame {
                kind: Kind::Val,
                at,
                value,
                sender,
            }));
        }
        let aux = held.aux.iter();
        frames.extend(aux.map(|(&sender, &value)| Frame {
            kind: Kind::Aux,
            at,
            value,
            sender,
        }));
    }
    frames
}

/// A frame again that the host has recorded already.
fn repeat(world: &World, rng: &mut Rng) -> [u8; 3] {
    let Some((host, frame)) = some_recorded(world, rng, |_| true) else {
        return odd_turn(world, rng);
    };
    event_bytes(0, 0, host, frame.pack())
}

/// Another AUX of a sender whose AUX is recorded, honest senders included.
fn other_aux(world: &World, rng: &mut Rng) -> [u8; 3] {
    let Some((host, mut frame)) = some_recorded(world, rng, |frame| frame.kind == Kind::Aux) else {
        return odd_turn(world, rng);
    };
    let others: Vec<Value> = frame
        .at
        .values()
        .iter()
        .copied()
        .filter(|&value| value != frame.value)
        .collect();
    frame.value = rng.pick(&others);
    event_bytes(0, 0, host, frame.pack())
}

fn some_recorded(
    world: &World,
    rng: &mut Rng,
    wanted: impl Fn(&Frame) -> bool,
) -> Option<(u8, Frame)> {
    let honest = world.honest();
    if honest.is_empty() {
        return None;
    }
    let host = rng.pick(&honest);
    let frames: Vec<Frame> = recorded(world, host)
        .into_iter()
        .filter(|frame| wanted(frame))
        .collect();
    (!frames.is_empty()).then(|| (host, rng.pick(&frames)))
}
