//! Request [9] at the controller: the last four messages are held, each at the place of its tag.

use crate::common::{held, of, place_of, Bench};
use charkhavo_host::limits::{BYTES, PLACES, WORDS};
use charkhavo_host::plain::TagRecord;

/// A write of a number that says which message it is, to the word of its tag modulo 8.
fn write(number: u32) -> [u32; 3] {
    [0x8001_0F10 | (number % 16), 4 * (number % 8), 0xAA00 + number]
}

fn written(number: u32) -> Vec<u32> {
    vec![0x8000_0030 | (number % 16)]
}

/// A controller that so many writes have come to, one after another.
fn after(writes: u32) -> Bench {
    let mut bench = Bench::sheet();
    for number in 0..writes {
        assert_eq!(bench.give(&write(number)), Ok(written(number)));
    }
    bench
}

#[test]
fn the_last_four_are_answered_again_and_no_other() {
    for writes in 1..40 {
        let mut bench = after(writes);
        let memory = bench.memory.clone();
        assert_eq!(bench.tags.held, writes.min(4));
        for number in 0..writes {
            let behind = writes - 1 - number;
            let expected = match (behind, behind % 16) {
                (0..=3, _) => Ok(written(number)),
                (_, 0..=3) => Err(of(12)),
                // The next tag: it would be new, which is why no request may be 15 behind.
                (_, 15) => continue,
                _ => Err(of(11)),
            };
            assert_eq!(bench.give(&write(number)), expected, "{number} after {writes}");
        }
        assert_eq!(bench.memory, memory, "none is carried out again");
    }
}

#[test]
fn early_ones_are_refused_until_those_before_came() {
    let mut bench = after(14);
    for early in [15, 16, 17] {
        assert_eq!(bench.give(&write(early)), Err(of(11)));
    }
    for number in 14..18 {
        assert_eq!(bench.give(&write(number)), Ok(written(number)));
    }
    for number in (14..18).rev() {
        assert_eq!(bench.give(&write(number)), Ok(written(number)), "across 15 and 0");
    }
    assert_eq!(bench.tags, held(1, &[(1, 3); 4]));
}

#[test]
fn each_place_has_its_own_answer_and_request() {
    // Reads of 1 to 5 words, so that every length differs; the fifth is held where the first was.
    let read = |number: u32| [0x8000_0020 | (number + 1) << 16 | number, 4 * (3 - number % 3)];
    let mut bench = Bench::new((0..20).map(|word| 0xB000 + word).collect());
    let mut sent = Vec::new();
    for number in 0..5 {
        sent.push(bench.give(&read(number)).unwrap());
    }
    let lengths = [(6, 2), (5, 2), (4, 2), (3, 2)];
    assert_eq!(bench.tags, held(4, &lengths));
    bench.memory.fill(0);
    for number in 1..5 {
        let place = place_of(number);
        let answer = &sent[number as usize];
        assert_eq!(bench.give(&read(number)), Ok(answer.clone()));
        assert_eq!(bench.stored[WORDS * place..][..answer.len()], answer[..]);
        assert_eq!(bench.kept[BYTES * place], 0x20 | number as u8);
    }
    assert_eq!(bench.give(&read(0)), Err(of(11)));
}

/// A repeat is held to the request of its own tag: each byte of each place, and no other place's.
#[test]
fn other_bytes_at_each_place() {
    for newest in 0..16 {
        let bench = Bench::with_tags(newest, 4);
        for back in 0..4 {
            let tag = (newest + 16 - back) % 16;
            for place in 0..PLACES {
                for byte in 0..4 {
                    let mut bench = bench.clone();
                    bench.kept[BYTES * place + byte] ^= 0x40;
                    let given = bench.give(&[0x8000_0000 | tag]).err();
                    let expected = (place == place_of(tag)).then_some(of(12));
                    assert_eq!(given, expected, "tag {tag}, byte {byte} of place {place}");
                }
            }
        }
    }
}

/// Check 1 looks at the places that are held, and at no other.
#[test]
fn lengths_of_places_that_are_held() {
    let all = (1..=4).flat_map(|many| (0..16).map(move |newest| (many, newest)));
    for (many, newest) in all {
        for place in 0..PLACES {
            let is_held = (0..many).any(|back| place_of(newest + 16 - back) == place);
            for length in [0, WORDS as u32 + 1, u32::MAX] {
                let mut words = Bench::with_tags(newest, many);
                words.tags.words[place] = length;
                let mut request = Bench::with_tags(newest, many);
                request.tags.request[place] = length;
                for mut bench in [words, request] {
                    let before = bench.tags;
                    let given = bench.give(&[0x8000_0080]).err();
                    let what = format!("{many} held back from {newest}, {length} at {place}");
                    assert_eq!(given, is_held.then_some(of(1)), "{what}");
                    assert_eq!(bench.tags, before);
                }
            }
        }
    }
}

/// A record that holds fewer than four holds one more with each new message, and the places that it
/// does not hold keep whatever they say until a message has them.
#[test]
fn one_more_is_held_with_each_new_message() {
    let any = [0, u32::MAX, 77, WORDS as u32 + 1];
    for newest in 0..16 {
        let place = place_of(newest);
        let mut tags = TagRecord { held: 1, tag: newest, words: any, request: any };
        (tags.words[place], tags.request[place]) = (1, 1);
        let mut bench = Bench { tags, ..Bench::with_tag(newest) };
        for more in 1..=6 {
            let tag = (newest + more) % 16;
            bench.give(&[0x8002_0000 | tag, 0, 0]).unwrap();
            (tags.held, tags.tag) = ((more + 1).min(4), tag);
            (tags.words[place_of(tag)], tags.request[place_of(tag)]) = (3, 3);
            assert_eq!(bench.tags, tags);
        }
    }
}

/// 1 before 2, 10 before 11, 11 before 12, with both faults.
#[test]
fn order_of_refusals_with_four_held() {
    let bench = Bench::with_tags(9, 4);
    let mut wrong = bench.clone();
    wrong.tags.words[place_of(6)] = 0;
    assert_eq!(wrong.give_bytes(&[]), Err(of(1)), "the oldest's length, and no bytes");
    assert_eq!(
        bench.clone().give(&[0x8FFF_0025, 0]),
        Err(of(10)),
        "too old, and too long an answer"
    );
    assert_eq!(bench.clone().give(&[0x8FFF_0026, 0]), Err(of(10)), "other bytes, and too long");
    assert_eq!(bench.clone().give(&[0x9000_0005]), Err(of(6)), "too old, and reserved bits");
    assert_eq!(bench.clone().give(&[0x8001_0025, 0]), Err(of(11)), "too old, and other bytes");
    assert_eq!(bench.clone().give(&[0x8001_0026, 0]), Err(of(12)), "the oldest, with other bytes");
    assert_eq!(bench.clone().give(&[0x8001_002B, 0]), Err(of(11)), "early");
}
