//! The named run files, each built so that it can be read.

use crate::file::{event_bytes, header_bytes, Sizes, Start};
use crate::frame::{Fields, Instance, Value};
use crate::host::Standing;
use crate::world::World;

use Value::{One, Zero};

/// Name and maker of each example.
type Example = (&'static str, fn() -> Vec<u8>);

const EXAMPLES: [Example; 25] = [
    ("worked-example", worked_example),
    ("refused-01-header", refused_01_header),
    ("refused-01-record", refused_01_record),
    ("refused-01-event", refused_01_event),
    ("refused-02", refused_02),
    ("refused-03", refused_03),
    ("refused-04-header", refused_04_header),
    ("refused-04-record", refused_04_record),
    ("refused-04-liar", refused_04_liar),
    ("refused-04-event", refused_04_event),
    ("refused-05-host", refused_05_host),
    ("refused-05-sender", refused_05_sender),
    ("refused-06", refused_06),
    ("refused-07", refused_07),
    ("refused-08", refused_08),
    ("refused-09", refused_09),
    ("refused-10", refused_10),
    ("refused-11", refused_11),
    ("refused-12", refused_12),
    ("unanimous", unanimous),
    ("four-hosts-a-liar", four_hosts_a_liar),
    ("split-with-liars", split_with_liars),
    ("broken", broken),
    ("round-16", round_16),
    ("sent-224", sent_224),
];

pub fn names() -> Vec<&'static str> {
    EXAMPLES.iter().map(|(name, _)| *name).collect()
}

pub fn make(name: &str) -> Option<Vec<u8>> {
    EXAMPLES
        .iter()
        .find(|(known, _)| *known == name)
        .map(|(_, maker)| maker())
}

/// Stage 0 of phase 1 of round 1, where every run starts.
const FIRST: Instance = Instance::FIRST;
const FIRST_STAGE_1: Instance = Instance {
    round: 1,
    phase: 1,
    stage: 1,
};

/// An honest host with its proposal and the coins of its first rounds; the others are 0.
fn honest(proposal: Value, first_coins: &[Value]) -> Start {
    let mut coins = [Zero; 16];
    coins[..first_coins.len()].copy_from_slice(first_coins);
    Start {
        honest: true,
        proposal,
        coins,
    }
}

fn world(t: u8, starts: &[Start]) -> World {
    World::new(
        Sizes {
            n: starts.len() as u8,
            t,
        },
        starts,
    )
}

/// Two honest hosts that propose 1, and no event yet.
fn two_hosts() -> World {
    world(0, &[honest(One, &[]), honest(One, &[])])
}

/// An honest host that proposes 0, and a liar, although t is 0.
fn host_and_liar() -> World {
    world(0, &[honest(Zero, &[]), Start::LIAR])
}

/// Turns of one host for as long as they change something.
fn turn_until_idle(world: &mut World, host: u8) {
    while world.can_move(host) {
        world.turn(host);
    }
}

/// Delivers everything that is on its way, oldest first.
fn deliver_all(world: &mut World) {
    for (host, frame) in std::mem::take(&mut world.waiting) {
        world.deliver(host, frame);
    }
}

/// Turns of all and deliveries to all, in step, until every honest host is there.
fn play_in_step(
    world: &mut World,
    mut lie: impl FnMut(&mut World),
    there: impl Fn(&World, u8) -> bool,
) {
    while !world.honest().iter().all(|&host| there(world, host)) {
        for host in world.honest() {
            turn_until_idle(world, host);
        }
        lie(world);
        deliver_all(world);
    }
}

fn has_decided(world: &World, host: u8) -> bool {
    world.record(host).decision.is_some()
}

fn is_finished(world: &World, host: u8) -> bool {
    world.record(host).standing == Standing::Finished
}

/// VAL of value 1 in the first instance.
fn first_val_1(sender: u8) -> Fields {
    Fields {
        version: 0,
        kind: 0,
        round: 1,
        phase_less_one: 0,
        stage: 0,
        value: 1,
        sender,
    }
}

/// A delivery to host 0 of fields that may make no frame.
fn deliver_fields(world: &mut World, fields: Fields) {
    world.event(event_bytes(0, 0, 0, fields.word()));
}

fn worked_example() -> Vec<u8> {
    let mut world = two_hosts();
    world.turn(0);
    world.deliver_val(0, 0, FIRST, One);
    world.turn(0);
    world.turn(0);
    world.deliver_val(0, 1, FIRST, One);
    world.bytes
}

fn refused_01_header() -> Vec<u8> {
    two_hosts().bytes[..1].to_vec()
}

fn refused_01_record() -> Vec<u8> {
    two_hosts().bytes[..2 + 3 + 2].to_vec()
}

fn refused_01_event() -> Vec<u8> {
    let mut world = two_hosts();
    world.turn(0);
    world.turn(1);
    world.bytes.pop();
    world.bytes
}

fn refused_02() -> Vec<u8> {
    let mut bytes = header_bytes(0, 0, 0).to_vec();
    bytes.extend(honest(One, &[]).bytes());
    bytes
}

fn refused_03() -> Vec<u8> {
    let mut bytes = header_bytes(2, 1, 0).to_vec();
    for _ in 0..3 {
        bytes.extend(honest(One, &[]).bytes());
    }
    bytes
}

fn refused_04_header() -> Vec<u8> {
    let mut bytes = two_hosts().bytes;
    bytes[..2].copy_from_slice(&header_bytes(1, 0, 1));
    bytes
}

fn refused_04_record() -> Vec<u8> {
    let mut bytes = two_hosts().bytes;
    bytes[2] += 1;
    bytes
}

fn refused_04_liar() -> Vec<u8> {
    let mut bytes = host_and_liar().bytes;
    bytes[2 + 3 + 2] = 1;
    bytes
}

fn refused_04_event() -> Vec<u8> {
    let mut world = two_hosts();
    world.event(event_bytes(1, 0, 0, 0));
    world.event(event_bytes(3, 0, 0, 0));
    world.event(event_bytes(2, 1, 0, 0));
    world.event(event_bytes(2, 0, 0, first_val_1(0).word()));
    world.bytes
}

fn refused_05_host() -> Vec<u8> {
    let mut world = two_hosts();
    world.turn(2);
    world.deliver_val(2, 0, FIRST, One);
    world.bytes
}

fn refused_05_sender() -> Vec<u8> {
    let mut world = two_hosts();
    world.deliver_val(0, 2, FIRST, One);
    world.bytes
}

fn refused_06() -> Vec<u8> {
    let mut world = host_and_liar();
    world.turn(1);
    world.deliver_val(1, 0, FIRST, Zero);
    world.bytes
}

fn refused_07() -> Vec<u8> {
    let mut world = host_and_liar();
    deliver_fields(
        &mut world,
        Fields {
            version: 1,
            ..first_val_1(1)
        },
    );
    world.bytes
}

fn refused_08() -> Vec<u8> {
    let mut world = host_and_liar();
    deliver_fields(
        &mut world,
        Fields {
            round: 0,
            ..first_val_1(1)
        },
    );
    deliver_fields(
        &mut world,
        Fields {
            round: 17,
            ..first_val_1(1)
        },
    );
    world.bytes
}

fn refused_09() -> Vec<u8> {
    let mut world = host_and_liar();
    deliver_fields(
        &mut world,
        Fields {
            value: 3,
            ..first_val_1(1)
        },
    );
    deliver_fields(
        &mut world,
        Fields {
            value: 2,
            ..first_val_1(1)
        },
    );
    world.bytes
}

/// The liar makes host 0 see both bits in stage 1; a turn and a frame come after.
fn refused_10() -> Vec<u8> {
    let mut world = host_and_liar();
    break_host_0(&mut world);
    world.turn(0);
    world.deliver_val(0, 1, FIRST, One);
    world.bytes
}

fn refused_11() -> Vec<u8> {
    let mut world = two_hosts();
    world.turn(1);
    world.deliver_val(0, 1, FIRST, Zero);
    world.deliver_aux(0, 1, FIRST, One);
    world.deliver_val(0, 1, FIRST, One);
    world.bytes
}

fn refused_12() -> Vec<u8> {
    let mut world = host_and_liar();
    world.deliver_aux(0, 1, FIRST, Zero);
    world.deliver_aux(0, 1, FIRST, One);
    world.deliver_aux(0, 1, FIRST, Zero);
    world.bytes
}

/// All propose 1: decided in round 1 by all, although each coin says 0.
fn unanimous() -> Vec<u8> {
    let mut world = world(1, &[honest(One, &[]); 4]);
    play_in_step(&mut world, |_| {}, has_decided);
    world.bytes
}

/// Hosts 0 and 1, whose proposals differ, decide 1 in round 1. Liar 3 is the third
/// sender of every 1 that they admit or see, but in the first instance host 1 has
/// 0 admitted too, with the VAL of host 2, and AUX 0 of the liar.
fn four_hosts_a_liar() -> Vec<u8> {
    let mut world = world(
        1,
        &[
            honest(One, &[]),
            honest(Zero, &[]),
            honest(Zero, &[]),
            Start::LIAR,
        ],
    );
    for (phase, stage) in [(1, 0), (1, 1), (2, 0), (2, 1)] {
        let at = Instance {
            round: 1,
            phase,
            stage,
        };
        // Host 0 begins; host 1 echoes, and begins.
        world.turn(0);
        for host in [0, 1] {
            world.deliver_val(host, 0, at, One);
            world.deliver_val(host, 3, at, One);
        }
        turn_until_idle(&mut world, 1);
        world.deliver_val(0, 1, at, One);
        world.deliver_val(1, 1, at, One);
        // Both admit 1 and send AUX 1.
        turn_until_idle(&mut world, 0);
        turn_until_idle(&mut world, 1);
        if at == FIRST {
            world.turn(2);
            for sender in [1, 2, 3] {
                world.deliver_val(1, sender, at, Zero);
            }
            world.turn(1);
        }
        for host in [0, 1] {
            let told = if at == FIRST && host == 1 { Zero } else { One };
            world.deliver_aux(host, 0, at, One);
            world.deliver_aux(host, 1, at, One);
            world.deliver_aux(host, 3, at, told);
            world.turn(host);
        }
    }
    world.bytes
}

/// Split proposals, and liars 5 and 6 that say 0 to even hosts and 1 to odd ones.
/// The coins of round 1 repeat the split, those of round 2 are all 1.
fn split_with_liars() -> Vec<u8> {
    let mut world = world(
        2,
        &[
            honest(Zero, &[Zero, One]),
            honest(One, &[One, One]),
            honest(One, &[One, One]),
            honest(Zero, &[Zero, One]),
            honest(One, &[One, One]),
            Start::LIAR,
            Start::LIAR,
        ],
    );
    play_in_step(&mut world, two_faced, has_decided);
    world.bytes
}

/// Each liar sends to each honest host, in its instance, the bit of its number.
fn two_faced(world: &mut World) {
    for host in world.honest() {
        let at = world.record(host).at;
        let value = Value::of_bit(host % 2);
        for liar in world.liars() {
            world.deliver_val(host, liar, at, value);
            world.deliver_aux(host, liar, at, value);
        }
    }
}

/// All liars send a host these VAL and this AUX in its instance; then it has
/// turns, and its own frames, until it is past the instance or broken.
fn lead(world: &mut World, host: u8, at: Instance, vals: &[Value], aux: Value) {
    for liar in world.liars() {
        for &value in vals {
            world.deliver_val(host, liar, at, value);
        }
        world.deliver_aux(host, liar, at, aux);
    }
    while world.record(host).at == at && world.record(host).standing == Standing::Honest {
        turn_until_idle(world, host);
        deliver_own(world, host);
    }
}

/// Delivers to a host what it has broadcast itself.
fn deliver_own(world: &mut World, host: u8) {
    for (receiver, frame) in std::mem::take(&mut world.waiting) {
        if receiver == host && frame.sender == host {
            world.deliver(host, frame);
        } else {
            world.waiting.push((receiver, frame));
        }
    }
}

/// The liars make host 0 see both bits in stage 1 of its first phase.
fn break_host_0(world: &mut World) {
    lead(world, 0, FIRST, &[Zero], Zero);
    lead(world, 0, FIRST_STAGE_1, &[Zero, One], One);
}

/// Two liars at a table that bears one: host 0 is broken, host 1 goes on.
fn broken() -> Vec<u8> {
    let mut world = world(
        1,
        &[
            honest(Zero, &[]),
            honest(Zero, &[]),
            Start::LIAR,
            Start::LIAR,
        ],
    );
    break_host_0(&mut world);
    lead(&mut world, 1, FIRST, &[Zero], Zero);
    lead(&mut world, 1, FIRST_STAGE_1, &[Zero], Zero);
    world.bytes
}

/// Four honest hosts that vote until all are finished.
fn round_16() -> Vec<u8> {
    let coins = [Zero, One, One, Zero];
    let mut world = world(
        1,
        &[
            honest(Zero, &coins),
            honest(One, &coins),
            honest(Zero, &coins),
            honest(One, &coins),
        ],
    );
    play_in_step(&mut world, |_| {}, is_finished);
    world.bytes
}

/// The liar sends every VAL of every instance, so that host 0 broadcasts all of
/// them too, and an AUX of 0, so that it goes on to the end.
fn sent_224() -> Vec<u8> {
    let mut world = host_and_liar();
    for round in 1..=16 {
        for (phase, stage) in [(1, 0), (1, 1), (2, 0), (2, 1)] {
            let at = Instance {
                round,
                phase,
                stage,
            };
            lead(&mut world, 0, at, at.values(), Zero);
        }
    }
    world.bytes
}
