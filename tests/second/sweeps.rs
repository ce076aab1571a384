//! Cases that go through every word, or every first byte of an event.

use crate::fair;
use crate::file::event_bytes;
use crate::rng::Rng;
use crate::world::World;

/// Every word delivered to one host of a running vote, upwards or downwards.
pub fn every_word(rng: &mut Rng, mut world: World, downwards: bool) -> Vec<u8> {
    let manner = fair::Manner {
        limit: 400,
        deliveries: 70,
        lies: 5,
        noise: 0,
        slow: None,
    };
    fair::play(&mut world, rng, &manner);
    let honest = world.honest();
    let host = rng.pick(&honest);
    for number in 0..=u16::MAX {
        let word = if downwards { u16::MAX - number } else { number };
        world.event(event_bytes(0, 0, host, word));
        if rng.chance(1) {
            world.turn(host);
        }
    }
    for _ in 0..rng.between(200, 600) {
        world.turn(host);
    }
    world.bytes
}

/// Every first byte of an event, each with a zero frame, a fair one and any one.
pub fn every_first_byte(rng: &mut Rng, mut world: World) -> Vec<u8> {
    let manner = fair::Manner {
        limit: 300,
        deliveries: 70,
        lies: 5,
        noise: 0,
        slow: None,
    };
    fair::play(&mut world, rng, &manner);
    let frames: Vec<u16> = world
        .waiting
        .iter()
        .map(|(_, frame)| frame.pack())
        .collect();
    for first in 0..=u8::MAX {
        let fair_word = if frames.is_empty() {
            0x0220
        } else {
            rng.pick(&frames)
        };
        for word in [0, fair_word, rng.below(65536) as u16] {
            let [high, low] = word.to_be_bytes();
            world.event([first, high, low]);
        }
    }
    world.bytes
}
