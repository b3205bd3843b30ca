//! A loader with up to four messages waiting and a controller, over a channel that loses, repeats and
//! reorders: memory is always what the messages, each carried out once in order, make of it, and
//! outcomes come in order. And the training table over such a channel, with restarts.

// Each test program has one of the two pairs.
#[allow(dead_code)]
pub mod bare;
mod lives;
mod met;
mod pair;
mod rounds;
mod table;
mod world;
#[allow(dead_code)]
pub mod wrapped;

use met::Met;
use pair::TwoEnds;
use world::{World, TOO_OLD};

#[test]
fn a_hundred_thousand_messages() {
    let mut met = Met::default();
    for seed in 1..=20 {
        let mut world = World::new(seed);
        while world.finished < 5_000 {
            let most = world.random.below(5);
            stretch(&mut world, most, 5_000);
        }
        assert_eq!((world.taken, world.finished), (5_000, 5_000));
        met.add(world.met);
    }
    met.all(TOO_OLD);
}

/// A while in which so many wait at most: with none, until all are finished, and the loader then
/// starts anew.
fn stretch(world: &mut World, most: usize, end: usize) {
    let until = (world.finished + 20).min(world.offered().max(end));
    let mut events = 0;
    while world.finished < until && (most > 0 || world.pair.waiting() > 0) {
        if world.offered() < end && world.pair.waiting() < most && world.random.one_in(2) {
            world.offer();
        }
        if world.random.one_in(3) {
            send_some(world);
        }
        world.noise();
        events += 1;
        assert!(events < 100_000, "it does not come to an end");
    }
    if world.pair.waiting() == 0 {
        let next = world.pair.new_tag();
        world.restart();
        assert_eq!(world.pair.new_tag(), next, "it goes on where it was");
        world.noise();
    }
}

/// One of the messages that wait for their answer is sent: the oldest, or any.
fn send_some(world: &mut World) {
    let unanswered = world.unanswered();
    if let [oldest, ..] = unanswered[..] {
        let any = world.random.pick(&unanswered);
        let number = world.random.pick(&[oldest, any, any]);
        world.send(number);
    }
}

/// If of any L sends of the oldest unfinished message in a row one arrives and its answer is back
/// before the next, N messages are finished by such send N times L, whatever else is sent between.
#[test]
fn finished_by_send_n_times_l() {
    for (seed, l) in [(31, 1), (32, 2), (33, 5), (34, 9)] {
        let n = 1_000;
        let mut world = World::new(seed);
        while world.finished < n {
            let most = world.random.between(1, 4);
            while world.offered() < n && world.pair.waiting() < most {
                world.offer();
            }
            if world.sends % l == l - 1 {
                world.good_send();
            } else {
                let oldest = world.finished;
                world.send(oldest);
            }
            for _ in 0..world.random.below(4) {
                send_a_younger(&mut world);
                world.noise();
            }
        }
        assert!(world.sends <= n * l, "{} sends for {n} times {l}", world.sends);
    }
}

fn send_a_younger(world: &mut World) {
    if let [_, younger @ ..] = &world.unanswered()[..] {
        if !younger.is_empty() {
            let number = world.random.pick(younger);
            world.send(number);
        }
    }
}
