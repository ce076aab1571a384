//! The numbered cases: number, kind and run file belong together for good.

use crate::damage;
use crate::fair;
use crate::file::{Sizes, Start};
use crate::frame::Value;
use crate::noise;
use crate::rng::Rng;
use crate::steer::{self, Director};
use crate::sweeps;
use crate::world::World;

pub struct Case {
    pub kind: &'static str,
    pub bytes: Vec<u8>,
}

/// The case of that number. Four of every 500 are sweeps and long runs; the others
/// take their kind from their place in a dozen.
pub fn make(number: u64) -> Case {
    let rng = &mut Rng::new(number);
    let (kind, bytes) = match (number % 500, number % 12) {
        (100, _) => ("sweep", every_word(rng, false)),
        (200, _) => ("sweep", every_word(rng, true)),
        (300, _) => ("long", long(rng)),
        (400, _) => ("sweep", every_first_byte(rng)),
        (_, 0 | 6) => ("fair", fair_case(rng)),
        (_, 1 | 4 | 7) => ("steered", steered(rng)),
        (_, 2 | 8) => ("many liars", many_liars(rng)),
        (_, 3 | 9) => ("noise", noisy(rng)),
        (_, 5) => ("sizes", sized(rng, number / 12)),
        (_, 10) => ("damaged", damaged(rng)),
        _ => ("tiny", tiny(rng)),
    };
    Case { kind, bytes }
}

/// Small tables mostly, up to 32 hosts sometimes; t mostly as large as it may be.
fn some_sizes(rng: &mut Rng) -> Sizes {
    let n = match rng.below(10) {
        0 if rng.chance(30) => 32,
        0 => rng.between(2, 31),
        1 | 2 => rng.between(8, 13),
        3 | 4 => 7,
        5 => rng.between(5, 6),
        _ => 4,
    };
    let most = (n - 1) / 3;
    let t = if rng.chance(80) {
        most
    } else {
        rng.below(most + 1)
    };
    Sizes {
        n: n as u8,
        t: t as u8,
    }
}

/// Host records with that many liars among them.
fn some_starts(rng: &mut Rng, n: u8, liars: u8) -> Vec<Start> {
    let hosts: Vec<u8> = (0..n).collect();
    let lying = rng.shuffled(&hosts)[..usize::from(liars)].to_vec();
    let common_proposal = [Some(0), Some(1), None, None, None][rng.index(&[0; 5])];
    let common_coins = some_coins(rng);
    let coins_agree = rng.pick(&[0, 50, 90, 100]);
    let mut starts = Vec::new();
    for host in hosts {
        let proposal = Value::of_bit(common_proposal.unwrap_or(rng.small(2)));
        let own_coins = some_coins(rng);
        let mut coins = common_coins;
        for (coin, own) in coins.iter_mut().zip(own_coins) {
            if !rng.chance(coins_agree) {
                *coin = own;
            }
        }
        starts.push(if lying.contains(&host) {
            Start::LIAR
        } else {
            Start {
                honest: true,
                proposal,
                coins,
            }
        });
    }
    starts
}

fn some_coins(rng: &mut Rng) -> [Value; 16] {
    [(); 16].map(|()| Value::of_bit(rng.small(2)))
}

fn some_world(rng: &mut Rng, sizes: Sizes, liars: u8) -> World {
    World::new(sizes, &some_starts(rng, sizes.n, liars))
}

/// At most t liars, and t more often than fewer.
fn few_liars(rng: &mut Rng, sizes: Sizes) -> u8 {
    if rng.chance(60) {
        sizes.t
    } else {
        rng.small(sizes.t + 1)
    }
}

/// More than t liars, and not all.
fn too_many_liars(rng: &mut Rng, sizes: Sizes) -> u8 {
    rng.between(u64::from(sizes.t) + 1, u64::from(sizes.n) - 1) as u8
}

/// Mostly short, sometimes as long as small tables need for all sixteen rounds.
fn some_limit(rng: &mut Rng) -> u64 {
    if rng.chance(15) {
        9_000
    } else {
        rng.between(200, 2_500)
    }
}

fn some_host(rng: &mut Rng, world: &World, percent: u64) -> Option<u8> {
    let honest = world.honest();
    (!honest.is_empty() && rng.chance(percent)).then(|| rng.pick(&honest))
}

fn fair_manner(rng: &mut Rng, world: &World) -> fair::Manner {
    fair::Manner {
        limit: some_limit(rng),
        deliveries: rng.between(50, 90),
        lies: rng.pick(&[0, 3, 10, 20]),
        noise: 0,
        slow: some_host(rng, world, 30),
    }
}

fn steer_manner(rng: &mut Rng, world: &World) -> steer::Manner {
    steer::Manner {
        limit: some_limit(rng),
        noise: 0,
        wild: false,
        lavish: false,
        starved: some_host(rng, world, 25),
    }
}

fn fair_case(rng: &mut Rng) -> Vec<u8> {
    let sizes = some_sizes(rng);
    let liars = few_liars(rng, sizes);
    let mut world = some_world(rng, sizes, liars);
    let manner = fair_manner(rng, &world);
    fair::play(&mut world, rng, &manner);
    world.bytes
}

fn steered(rng: &mut Rng) -> Vec<u8> {
    let sizes = some_sizes(rng);
    let liars = few_liars(rng, sizes);
    let mut world = some_world(rng, sizes, liars);
    let manner = steer_manner(rng, &world);
    Director::new(&mut world, rng, manner).play();
    world.bytes
}

fn many_liars(rng: &mut Rng) -> Vec<u8> {
    let sizes = some_sizes(rng);
    let liars = too_many_liars(rng, sizes);
    let mut world = some_world(rng, sizes, liars);
    let lavish = rng.chance(40);
    let wild = rng.chance(if lavish { 30 } else { 80 });
    let manner = steer::Manner {
        lavish,
        wild,
        ..steer_manner(rng, &world)
    };
    Director::new(&mut world, rng, manner).play();
    world.bytes
}

/// A fair or steered vote with rule breaking events strewn in.
fn noisy(rng: &mut Rng) -> Vec<u8> {
    let sizes = some_sizes(rng);
    let many = rng.chance(50);
    let liars = if many {
        too_many_liars(rng, sizes)
    } else {
        few_liars(rng, sizes)
    };
    let mut world = some_world(rng, sizes, liars);
    let noise = rng.between(10, 50);
    if rng.chance(40) {
        let manner = fair::Manner {
            noise,
            ..fair_manner(rng, &world)
        };
        fair::play(&mut world, rng, &manner);
    } else {
        let manner = steer::Manner {
            noise: 2 * noise,
            wild: many,
            ..steer_manner(rng, &world)
        };
        Director::new(&mut world, rng, manner).play();
    }
    for _ in 0..rng.below(60) {
        noise::stir(&mut world, rng);
    }
    world.bytes
}

/// Any number of liars but not all.
fn any_world(rng: &mut Rng) -> World {
    let sizes = some_sizes(rng);
    let liars = rng.small(sizes.n);
    some_world(rng, sizes, liars)
}

fn damaged(rng: &mut Rng) -> Vec<u8> {
    let world = any_world(rng);
    damage::damaged(rng, world)
}

/// Goes through all n, n 1 a little more often, each with allowed and other t.
fn sized(rng: &mut Rng, count: u64) -> Vec<u8> {
    let n_less_one = if rng.chance(5) { 0 } else { (count % 32) as u8 };
    let t = if rng.chance(50) {
        rng.small(16)
    } else {
        rng.small(n_less_one / 3 + 2)
    };
    let n = (n_less_one + 1).max(2);
    let liars = rng.small(n);
    let world = some_world(
        rng,
        Sizes {
            n,
            t: t.min((n - 1) / 3),
        },
        liars,
    );
    damage::sized(rng, n_less_one, t, world)
}

/// Two to four hosts, any number of liars, all of them included.
fn tiny(rng: &mut Rng) -> Vec<u8> {
    let sizes = rng.pick(&[
        Sizes { n: 2, t: 0 },
        Sizes { n: 3, t: 0 },
        Sizes { n: 4, t: 1 },
    ]);
    let liars = rng.small(sizes.n + 1);
    let mut world = some_world(rng, sizes, liars);
    if liars == sizes.n {
        for _ in 0..rng.between(1, 60) {
            noise::stir(&mut world, rng);
        }
    } else if rng.chance(50) {
        let manner = fair::Manner {
            noise: rng.pick(&[0, 5]),
            ..fair_manner(rng, &world)
        };
        fair::play(&mut world, rng, &manner);
    } else {
        let manner = steer::Manner {
            wild: rng.chance(50),
            ..steer_manner(rng, &world)
        };
        Director::new(&mut world, rng, manner).play();
    }
    world.bytes
}

/// A large table with fair deliveries, to the last round.
fn long(rng: &mut Rng) -> Vec<u8> {
    let n = rng.pick(&[16, 24, 32]);
    let sizes = Sizes { n, t: (n - 1) / 3 };
    let liars = few_liars(rng, sizes);
    let mut world = some_world(rng, sizes, liars);
    let manner = fair::Manner {
        limit: 250_000,
        deliveries: 92,
        ..fair_manner(rng, &world)
    };
    fair::play(&mut world, rng, &manner);
    world.bytes
}

fn every_word(rng: &mut Rng, downwards: bool) -> Vec<u8> {
    let world = any_world(rng);
    sweeps::every_word(rng, world, downwards)
}

fn every_first_byte(rng: &mut Rng) -> Vec<u8> {
    let world = any_world(rng);
    sweeps::every_first_byte(rng, world)
}
