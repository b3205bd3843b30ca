//! Building, for any outputs, records and commands.

use crate::common::naive_building::Sequences;
use crate::common::seen::Seen;
use crate::common::{of, Ends, Given};
use crate::{Other, Ours, ROUNDS, SEED};
use charkhavo_host::limits::{BYTES, WORDS};
use charkhavo_host::plain::Building;
use charkhavo_host::random::building::{begin, next, output, record, Call};
use charkhavo_host::random::Random;

#[test]
fn building_calls() {
    let mut random = Random::new(SEED + 3);
    let mut seen = Seen::default();
    let (mut calls, mut finished) = (0, 0);
    while calls < ROUNDS {
        let mut output = output(&mut random);
        let old = record(&mut random);
        let (refusal, begun) = same_begin(&mut random, &output, old);
        seen.note(refusal.number);
        let goes_on = refusal.number == 0 && !random.one_in(3);
        let mut building = if goes_on { begun } else { old };
        let more = random.between(1, 40);
        for _ in 0..more {
            let call = next(&mut random, building.kind);
            let (refusal, after) = same_call(&mut output, building, &call);
            building = after;
            seen.note(refusal.number);
        }
        calls += 1 + more;
        if goes_on && building.closed {
            assert_eq!(Other::refusal(&output[..4 * building.words]), of(0), "well-formed");
            finished += 1;
        }
    }
    assert!(finished > ROUNDS / 1000, "{finished} finished messages");
    seen.exactly([0, 21, 22, 23, 24, 25, 26]);
}

/// Begins by both over one record; refusal and record must agree, and a refusal leave the record.
fn same_begin(random: &mut Random, output: &[u8], old: Building) -> Given<Building> {
    let Call::Begin { kind, tag, wide, discovery } = begin(random) else { unreachable!() };
    let ours = Ours::begin(output, old, kind, tag, wide, discovery);
    assert_eq!(ours, Other::begin(output, old, kind, tag, wide, discovery));
    assert!(ours.0.number == 0 || ours.1 == old, "{old:?} {ours:?}");
    ours
}

/// Adds or closes by both, over outputs alike; refusal, record and every byte must agree, and a
/// refusal leave the record.
fn same_call(output: &mut [u8], building: Building, call: &Call) -> Given<Building> {
    let mut other = output.to_vec();
    let (ours, others) = match call.addition() {
        Some(addition) => {
            (Ours::add(output, building, addition), Other::add(&mut other, building, addition))
        }
        None => (Ours::close(output, building), Other::close(&mut other, building)),
    };
    assert_eq!(ours, others, "{building:?} {call:?}");
    assert!(*output == *other, "{building:?} {call:?}");
    assert!(ours.0.number == 0 || ours.1 == building, "{building:?} {call:?}");
    ours
}

/// The numbers up to a little past the end: all near 0 and near the end, and some between.
fn up_to(end: usize) -> impl Iterator<Item = usize> {
    (0..=end + 2).filter(move |n| *n <= 24 || n % 41 == 0 || n + 24 >= end)
}

/// Records within the limits and a little past, with every number of answer words, beside what
/// following the calls finds.
#[test]
fn records_that_no_calls_give() {
    let mut output = vec![0; BYTES];
    for (which, sequences) in Sequences::all().iter().enumerate() {
        let empty = Building { kind: which as u32 / 2, wide: which % 2 == 1, ..Building::EMPTY };
        let mut allowed = 0u64;
        for words in up_to(WORDS) {
            for last in up_to(words) {
                for answer in 0..=WORDS + 2 {
                    let closed = answer % 3 == 0;
                    let record = Building { words, last, answer, closed, ..empty };
                    let given = sequences.give(words, last, answer, closed);
                    let (refusal, _) = Ours::close(&mut output, record);
                    assert_eq!(refusal != of(21), given, "{record:?}");
                    allowed += u64::from(given);
                }
            }
        }
        println!("kind and mode {which}: {allowed} records that calls give");
        assert!(allowed > 1);
    }
}
