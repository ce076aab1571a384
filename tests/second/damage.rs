//! Run files with a damaged header, damaged host records, or a cut.

use crate::fair;
use crate::file::header_bytes;
use crate::rng::Rng;
use crate::world::World;

/// Damages the file of a short run.
pub fn damaged(rng: &mut Rng, mut world: World) -> Vec<u8> {
    let limit = rng.between(1, 120);
    fair::play(
        &mut world,
        rng,
        &fair::Manner {
            limit,
            deliveries: 60,
            lies: 10,
            noise: 5,
            slow: None,
        },
    );
    let records_end = 2 + 3 * usize::from(world.sizes().n);
    let mut bytes = world.bytes.clone();
    let end = bytes.len();
    match rng.below(9) {
        0 => cut(rng, &mut bytes, 0, records_end),
        1 => cut(rng, &mut bytes, records_end, end),
        2 => flip(rng, &mut bytes, 0, 2),
        3 | 4 => spoil_record(rng, &mut bytes, &world),
        5 => {
            spoil_record(rng, &mut bytes, &world);
            cut(rng, &mut bytes, 2, records_end);
        }
        6 => {
            flip(rng, &mut bytes, 0, 2);
            flip(rng, &mut bytes, 0, 2);
            cut(rng, &mut bytes, 0, 8);
        }
        7 => flip_many(rng, &mut bytes, records_end),
        _ => {
            bytes.truncate(rng.index(&[0; 3]));
            bytes.extend((0..rng.below(200)).map(|_| rng.byte()));
        }
    }
    bytes
}

/// A header with that n minus 1 and t, allowed or not, and a short run behind it.
pub fn sized(rng: &mut Rng, n_less_one: u8, t: u8, world: World) -> Vec<u8> {
    let spare = if rng.chance(20) {
        rng.between(1, 127) as u8
    } else {
        0
    };
    let mut world = world;
    let limit = rng.between(1, 150);
    fair::play(
        &mut world,
        rng,
        &fair::Manner {
            limit,
            deliveries: 50,
            lies: 0,
            noise: 20,
            slow: None,
        },
    );
    let mut bytes = world.bytes;
    bytes[..2].copy_from_slice(&header_bytes(n_less_one, t, spare));
    if rng.chance(10) {
        let end = bytes.len();
        cut(rng, &mut bytes, 0, end);
    }
    bytes
}

/// Ends the file somewhere between two places, the second left out.
fn cut(rng: &mut Rng, bytes: &mut Vec<u8>, from: usize, to: usize) {
    bytes.truncate(from + rng.below((to - from) as u64) as usize);
}

/// Turns one bit over, between two places.
fn flip(rng: &mut Rng, bytes: &mut [u8], from: usize, to: usize) {
    let to = to.min(bytes.len());
    let place = rng.between(from as u64, to as u64 - 1) as usize;
    bytes[place] ^= 1 << rng.below(8);
}

/// Sets a spare bit in a record, or the proposal or a coin bit in a liar's.
fn spoil_record(rng: &mut Rng, bytes: &mut [u8], world: &World) {
    let liars = world.liars();
    let of_liar = !liars.is_empty() && rng.chance(70);
    let host = if of_liar {
        rng.pick(&liars)
    } else {
        rng.small(world.sizes().n)
    };
    let place = 2 + 3 * usize::from(host);
    match rng.below(3) {
        0 if of_liar => bytes[place] += 64,
        1 if of_liar => bytes[place + rng.between(1, 2) as usize] = 1 << rng.below(8),
        _ => bytes[place] += 1 << rng.below(6),
    }
}

/// Turns over some bits of the events.
fn flip_many(rng: &mut Rng, bytes: &mut [u8], from: usize) {
    if bytes.len() > from {
        for _ in 0..rng.between(1, 30) {
            let end = bytes.len();
            flip(rng, bytes, from, end);
        }
    }
}
