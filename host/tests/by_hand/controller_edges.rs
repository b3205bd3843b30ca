//! Edges that document 01 and the decided points name, at the controller.

use crate::common::{held, of, words_of, Bench};
use charkhavo_host::limits::{BYTES, PLACES, WORDS};
use charkhavo_host::plain::TagRecord;

#[test]
fn nothing_wraps_to_word_0() {
    for (high, low) in [(0, 0xFFFF_FFFC), (3, 0xFFFF_FFFC), (u32::MAX, 0xFFFF_FFFC), (1, 0)] {
        let mut bench = Bench::sheet();
        let sent = bench.give(&[0x8002_FF50, low, high, 1, 2]);
        assert_eq!(sent, Ok(vec![0x8000_0270]));
        assert_eq!(bench.memory, Bench::sheet().memory);
    }
    let narrow = Bench::sheet().give(&[0x8002_FF10, 0xFFFF_FFFC, 1, 2]);
    assert_eq!(narrow, Ok(vec![0x8000_0230]));
}

#[test]
fn addresses_off_a_multiple_of_4_fail() {
    for address in [1, 2, 3, 5, 29] {
        assert_eq!(Bench::sheet().give(&[0x8001_0020, address]), Ok(vec![0x8000_0230]));
        assert_eq!(Bench::sheet().give(&[0x8001_0010, address, 0]), Ok(vec![0x8000_0230]));
    }
}

#[test]
fn ranges_up_to_the_end() {
    assert_eq!(Bench::sheet().give(&[0x8001_0020, 28]), Ok(vec![0x8001_0030, 0]));
    assert_eq!(Bench::sheet().give(&[0x8001_0020, 32]), Ok(vec![0x8000_0230]));
    assert_eq!(Bench::sheet().give(&[0x8008_0020, 0]).unwrap().len(), 9);
    assert_eq!(Bench::sheet().give(&[0x8009_0020, 0]), Ok(vec![0x8000_0230]));
}

#[test]
fn the_whole_of_the_largest_memory() {
    let mut bench = Bench::new((0..16_384).collect());
    let sent = bench.give(&[0x8002_0020, 65_528]);
    assert_eq!(sent, Ok(vec![0x8002_0030, 16_382, 16_383]));
}

#[test]
fn exactly_the_enabled_bytes() {
    for enables in 0..16u32 {
        let mut bench = Bench::new(vec![0x4433_2211]);
        bench.give(&[0x8001_0010 | enables << 8, 0, 0xDDCC_BBAA]).unwrap();
        let bytes: Vec<u8> = (0..4)
            .map(|byte| {
                [0x11, 0x22, 0x33, 0x44, 0xAA, 0xBB, 0xCC, 0xDD]
                    [byte + 4 * (enables as usize >> byte & 1)]
            })
            .collect();
        assert_eq!(bench.memory, words_of(&bytes), "enables {enables:X}");
    }
}

#[test]
fn first_and_last_enables_and_whole_words_between() {
    let mut bench = Bench::new(vec![0x1111_1111; 5]);
    let sent = bench.give(&[0x8003_1810, 4, 0xAABB_CCDD, 0xAABB_CCDD, 0xAABB_CCDD]);
    assert_eq!(sent, Ok(vec![0x8000_0030]));
    let (first, last) = (0xAA11_1111, 0x1111_11DD);
    assert_eq!(bench.memory, [0x1111_1111, first, 0xAABB_CCDD, last, 0x1111_1111]);
}

#[test]
fn no_byte_enabled_is_legal_but_its_address_is_judged() {
    let mut bench = Bench::sheet();
    assert_eq!(bench.give(&[0x8001_0010, 16, 7]), Ok(vec![0x8000_0030]));
    assert_eq!(bench.memory, Bench::sheet().memory);
    assert_eq!(bench.give(&[0x8001_0011, 32, 7]), Ok(vec![0x8000_0231]));
    assert_eq!(bench.tags, held(1, &[(1, 3), (1, 3)]), "an Error is done");
}

#[test]
fn a_nop_has_no_address_in_either_mode() {
    assert_eq!(Bench::sheet().give(&[0x8000_0040]), Ok(vec![0x8000_0070]));
    let sent = Bench::sheet().give(&[0x8001_0040, 9]);
    assert_eq!(sent, Ok(vec![0x8001_0070, BYTES as u32]));
}

#[test]
fn advertisements_tell_the_newest_tag_at_entry() {
    let limit = BYTES as u32;
    let two = |byte0: u32| [0x0002_0000 | byte0, 0, 0, 0x8002_0000 | byte0, 0, 0];
    let answer =
        |byte0: u32, word| vec![0x0002_0030 | byte0, limit, word, 0x8002_0030 | byte0, limit, word];
    let mut bench = Bench::sheet();
    assert_eq!(bench.give(&two(0x80)), Ok(answer(0x80, 0)));
    assert_eq!(bench.give(&two(0x00)), Ok(answer(0x00, 0)), "fresh when the call began");
    assert_eq!(bench.give(&two(0x01)), Ok(answer(0x01, 16)));
    assert_eq!(bench.give(&two(0x02)), Ok(answer(0x02, 16 + 1)));
    assert_eq!(bench.give(&two(0x83)), Ok(answer(0x83, 16 + 2)));
    assert_eq!(bench.give(&two(0x01)), Ok(answer(0x01, 16)), "a repeat as it was");
}

#[test]
fn reads_of_several_commands_stop_at_the_first_error() {
    let mut bench = Bench::sheet();
    let sent = bench.give(&[0x0002_0020, 16, 0x0001_0020, 33, 0x8001_0020, 16]);
    assert_eq!(sent, Ok(vec![0x0002_0030, 0xF00D_FACE, 0, 0x8000_0230]));
    assert_eq!(bench.tags, held(0, &[(4, 6)]));
}

#[test]
fn a_read_sees_earlier_messages_and_its_repeat_does_not_see_later_ones() {
    let mut bench = Bench::sheet();
    bench.give(&[0x8001_0F10, 0, 5]).unwrap();
    let sent = bench.give(&[0x8001_0021, 0]);
    assert_eq!(sent, Ok(vec![0x8001_0031, 5]));
    bench.give(&[0x8001_0F90, 0, 6]).unwrap();
    assert_eq!(bench.give(&[0x8001_0021, 0]), sent);
    assert_eq!(bench.give(&[0x8001_0F11, 0, 9]), Err(of(12)), "a repeat has the same bytes");
    bench.give(&[0x8001_0F12, 0, 7]).unwrap();
    assert_eq!(bench.give(&[0x8001_0021, 0]), sent);
    assert_eq!(bench.memory[0], 7);
}

#[test]
fn a_fresh_record_takes_only_tag_0_and_a_discovery_keeps_its_fields() {
    let any = [u32::MAX; PLACES];
    let tags = TagRecord { held: 0, tag: 77, words: any, request: any };
    let mut bench = Bench { tags, ..Bench::sheet() };
    for tag in 0..16 {
        bench.give(&[0x8001_00A0 | tag, 0]).unwrap();
        assert_eq!(bench.tags, tags);
    }
    for tag in 1..16 {
        assert_eq!(bench.give(&[0x8001_0020 | tag, 0]), Err(of(11)), "tag {tag}");
    }
    bench.give(&[0x8001_0020, 0]).unwrap();
    let lengths = [2, u32::MAX, u32::MAX, u32::MAX];
    assert_eq!(bench.tags, TagRecord { held: 1, tag: 0, words: lengths, request: lengths });
}

#[test]
fn messages_and_answers_as_long_as_can_be() {
    let mut bench = Bench::new(vec![3; WORDS]);
    let count = (WORDS as u32 - 2) << 16;
    let mut write = vec![0x8000_FF10 | count, 4];
    write.extend((0..WORDS as u32 - 2).map(|word| word ^ 0x8888_8888));
    assert_eq!(bench.give(&write), Ok(vec![0x8000_0030]));
    assert_eq!(bench.memory[1..WORDS - 1], write[2..]);
    assert_eq!(bench.tags, held(0, &[(1, WORDS as u32)]));
    assert_eq!(bench.give(&write), Ok(vec![0x8000_0030]), "compared whole");
    let read = [0x8000_0021 | (WORDS as u32 - 1) << 16, 4];
    let sent = bench.give(&read).unwrap();
    assert_eq!(sent.len(), WORDS);
    assert_eq!(sent[1..], bench.memory[1..]);
    assert_eq!(bench.tags, held(1, &[(WORDS as u32, 2), (1, WORDS as u32)]));
    assert_eq!(bench.give(&read), Ok(sent), "repeated whole");
    assert_eq!(bench.give(&write), Ok(vec![0x8000_0030]), "and so is the one before");
}
