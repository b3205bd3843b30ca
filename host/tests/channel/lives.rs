//! Any number of restarts: the loader loses all it knows at any moment, asks by discovery and
//! begins its list, or another, from the first message; the controller is reset now and then.
//! Memory is always what the lives, one after another, make of it, each by a first part of its list.

use super::met::Met;
use super::pair::TwoEnds;
use super::send_some;
use super::world::{World, TOO_OLD};

#[test]
fn a_hundred_thousand_messages_over_restarts() {
    let (mut met, mut messages) = (Met::default(), 0);
    for seed in 41..=60 {
        let mut world = World::new(seed);
        while world.carried() < 5_000 {
            life(&mut world);
        }
        world.check_past();
        messages += world.carried();
        met.add(world.met);
    }
    println!("{messages} messages");
    met.all(TOO_OLD);
    met.all_lives();
}

/// A life with a list of so many messages. One event in some number is its last; else it goes on
/// until the list is finished, and a while.
fn life(world: &mut World) {
    let list = world.random.pick(&[0, 1, 4, 5, 20, 60, 200]);
    let dies = world.random.pick(&[0, 3, 10, 10, 30, 300]);
    let mut events = 0;
    while !world.heard() || world.finished < list {
        if dies > 0 && world.random.one_in(dies) {
            return world.dies(list);
        }
        if world.heard() {
            goes_on(world, list);
        } else {
            world.opens();
        }
        events += 1;
        assert!(events < 100_000, "it does not come to an end");
    }
    for _ in 0..world.random.below(5) {
        world.noise();
    }
    world.dies(list);
}

fn goes_on(world: &mut World, list: usize) {
    let most = world.random.below(5);
    if world.offered() < list && world.pair.waiting() < most {
        world.offer();
    }
    if world.random.one_in(3) {
        send_some(world);
    }
    world.noise();
}
