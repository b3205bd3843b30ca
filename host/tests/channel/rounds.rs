//! What four in flight are for: over a channel with a delay of one round trip an answer, a list takes
//! a quarter of the rounds. Rounds are counted, not seconds.

use super::pair::TwoEnds;
use super::world::World;

const N: usize = 1_000;

/// How the channel treats what goes in a round.
#[derive(Clone, Copy)]
struct Channel {
    /// Answers come back in the order that they were given, or the other way round.
    crossed: bool,
    /// One datagram in so many is lost, on each way; 0 for none.
    lost: usize,
}

/// The rounds that a list takes with so many in flight. In a round every message that waits for its
/// answer is sent, and what is answered comes back before the next.
fn rounds(in_flight: usize, channel: Channel) -> usize {
    let mut world = World::new(77);
    let mut rounds = 0;
    while world.finished < N {
        while world.offered() < N && world.pair.waiting() < in_flight {
            world.offer();
        }
        round(&mut world, channel);
        rounds += 1;
    }
    rounds
}

fn round(world: &mut World, channel: Channel) {
    let mut answers = Vec::new();
    for number in world.unanswered() {
        world.send(number);
        let lost = channel.lost > 0 && world.random.one_in(channel.lost);
        answers.extend(world.newest_arrives(lost));
    }
    if channel.crossed {
        answers.reverse();
    }
    for answer in answers {
        let lost = channel.lost > 0 && world.random.one_in(channel.lost);
        world.comes_back(answer, lost);
    }
}

#[test]
fn a_list_takes_a_quarter_of_the_rounds() {
    for crossed in [false, true] {
        let channel = Channel { crossed, lost: 0 };
        for in_flight in 1..=4 {
            assert_eq!(rounds(in_flight, channel), N.div_ceil(in_flight), "{in_flight} in flight");
        }
    }
}

/// With one datagram in ten lost on each way, four in flight take less than half of the rounds.
#[test]
fn a_list_takes_fewer_rounds_over_a_channel_that_loses() {
    let channel = Channel { crossed: false, lost: 10 };
    let [one, four] = [1, 4].map(|in_flight| rounds(in_flight, channel));
    println!("{one} rounds one at a time, {four} with four in flight");
    assert!(2 * four < one, "{four} beside {one}");
}
