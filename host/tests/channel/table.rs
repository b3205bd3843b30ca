//! The training table over the channel, with restarts of the loader and resets of the controller at any
//! moment: the mark is 24 only while all 24 rows are those of one life; a life that is done has its own
//! there; one that ends leaves the mark 0, or as it was where clearing it failed.

mod night;

use crate::common::seen::Seen;
use night::{Memory, Night};

/// A life that dies at one event in so many, or at none: then it goes on until it is done or has ended,
/// and a while. Gives how far it came.
fn life(night: &mut Night) -> u32 {
    let dies = night.random.pick(&[0, 3, 10, 30, 30, 100]);
    let mut events = 0;
    while night.goes_on() {
        if dies > 0 && night.random.one_in(dies) {
            break;
        }
        night.happens();
        events += 1;
        assert!(events < 100_000, "it does not come to an end");
    }
    if !night.goes_on() {
        for _ in 0..night.random.below(5) {
            night.happens();
        }
    }
    let came = night.came_to();
    night.dies();
    came
}

/// Lives upon a memory of this kind, from many seeds; how they ended, and which refusals came.
fn lives(memory: Memory, seeds: std::ops::Range<u64>, many: usize) -> (Seen, Seen) {
    let (mut ends, mut refusals) = (Seen::default(), Seen::default());
    for seed in seeds {
        let mut night = Night::new(seed, memory);
        for _ in 0..many {
            ends.note(life(&mut night));
        }
        refusals.add(night.refusals);
    }
    (ends, refusals)
}

#[test]
fn a_table_is_that_of_one_life() {
    let (ends, refusals) = lives(Memory::Good, 71..91, 1_000);
    ends.exactly([0, 1, 2, 3, 4, 100, 200]);
    refusals.exactly([32, 33]);
}

#[test]
fn a_row_that_does_not_hold_ends_every_attempt_with_its_number() {
    for row in 1..=24 {
        let (ends, refusals) = lives(Memory::Stuck(row), 91..93, 1_000);
        ends.exactly([0, 1, 2, 3, 100, 200 + row as u32]);
        refusals.exactly([32, 33]);
    }
}

#[test]
fn a_mark_outside_memory_ends_every_attempt_with_25() {
    let (ends, refusals) = lives(Memory::Short, 93..98, 500);
    ends.exactly([0, 1, 100, 225]);
    refusals.exactly([32, 33]);
}
