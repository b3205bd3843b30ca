//! Each refusal of the controller by hand-made datagrams, and the order they come in.

use crate::common::{at, bytes_of, held, of, Bench};
use charkhavo_host::limits::{BYTES, KEPT, PLACES, STORED, WORDS};
use charkhavo_host::plain::TagRecord;
use charkhavo_host::Refusal;

fn refused(words: &[u32]) -> Option<Refusal> {
    Bench::sheet().give(words).err()
}

const READ: [u32; 2] = [0x8001_0020, 0];

#[test]
fn refusal_1_buffers() {
    let lent = |memory, stored, kept, output| {
        let mut bench = Bench::new(vec![0; memory]);
        bench.stored.resize(stored, 0);
        bench.kept.resize(kept, 0);
        bench.output.resize(output, 0);
        bench.give(&READ).err()
    };
    assert_eq!(lent(1, STORED, KEPT, BYTES), None);
    assert_eq!(lent(16_384, STORED, KEPT, BYTES), None);
    assert_eq!(lent(0, STORED, KEPT, BYTES), Some(of(1)));
    assert_eq!(lent(16_385, STORED, KEPT, BYTES), Some(of(1)));
    assert_eq!(lent(1, STORED - 1, KEPT, BYTES), Some(of(1)));
    assert_eq!(lent(1, WORDS, KEPT, BYTES), Some(of(1)), "one answer's room");
    assert_eq!(lent(1, STORED, KEPT - 1, BYTES), Some(of(1)));
    assert_eq!(lent(1, STORED, BYTES, BYTES), Some(of(1)), "one request's room");
    assert_eq!(lent(1, STORED, 0, BYTES), Some(of(1)));
    assert_eq!(lent(1, STORED, KEPT, BYTES - 1), Some(of(1)));
    assert_eq!(lent(1, 0, 0, 0), Some(of(1)));
    assert_eq!((STORED, KEPT), (4 * 2_243, 4 * 8_972));
}

#[test]
fn refusal_1_record() {
    let with = |tags| Bench { tags, ..Bench::sheet() }.give(&[0x8001_00A0, 0]).err();
    let most = WORDS as u32;
    for many in 1..=PLACES {
        assert_eq!(with(held(15, &[(1, 1)].repeat(many))), None);
        assert_eq!(with(held(0, &[(most, most)].repeat(many))), None);
        assert_eq!(with(held(16, &[(1, 1)].repeat(many))), Some(of(1)));
        assert_eq!(with(held(u32::MAX, &[(1, 1)].repeat(many))), Some(of(1)));
    }
    for length in [0, most + 1, u32::MAX / 4 + 2, u32::MAX] {
        assert_eq!(with(held(0, &[(length, 1)])), Some(of(1)), "an answer of {length}");
        assert_eq!(with(held(0, &[(1, length)])), Some(of(1)), "a request of {length}");
        let lengths = [length; PLACES];
        let fresh = TagRecord { held: 0, tag: u32::MAX, words: lengths, request: lengths };
        assert_eq!(with(fresh), None, "a fresh record is not looked into");
    }
    for many in [5, 6, 16, u32::MAX] {
        let tags = TagRecord { held: many, ..held(3, &[(1, 1)].repeat(PLACES)) };
        assert_eq!(with(tags), Some(of(1)), "{many} held");
    }
}

#[test]
fn refusal_1_asks_first() {
    let mut bench = Bench::new(Vec::new());
    assert_eq!(bench.give_bytes(&[]), Err(of(1)));
    assert_eq!(bench.give_bytes(&[0; 5]), Err(of(1)));
}

#[test]
fn refusal_2_length() {
    let long = |length| Bench::sheet().give_bytes(&vec![0; length]).err();
    for length in [0, 1, 2, 3, 5, 7, BYTES - 1, BYTES + 1, BYTES + 4, 10 * BYTES] {
        assert_eq!(long(length), Some(of(2)), "{length} bytes");
    }
    let mut nops = vec![0; WORDS];
    assert_eq!(refused(&nops), Some(at(3, WORDS)), "as long as can be, and LAST missing");
    nops[WORDS - 1] = 0x8000_0000;
    assert_eq!(refused(&nops), None);
}

#[test]
fn refusal_3_past_the_end() {
    assert_eq!(refused(&[0x8001_0F10]), Some(of(3)), "no address");
    assert_eq!(refused(&[0x8001_0F10, 0]), Some(of(3)), "no data");
    assert_eq!(refused(&[0x8002_FF10, 0, 1]), Some(of(3)), "data short");
    assert_eq!(refused(&[0x8001_0F50, 0, 0]), Some(of(3)), "wide, no data");
    assert_eq!(refused(&[0x8001_0020]), Some(of(3)), "a read without its address");
    assert_eq!(refused(&[0x8001_0060, 0]), Some(of(3)), "a wide read with half of it");
    assert_eq!(refused(&[0x8002_0000, 0]), Some(of(3)), "a NOP short of a word");
    assert_eq!(refused(&[0x0001_0020, 0]), Some(at(3, 2)), "LAST missing");
    assert_eq!(refused(&[0x0FFF_FF10, 0]), Some(of(3)), "the greatest count");
}

#[test]
fn refusal_4_byte_0() {
    for bit in 0..8 {
        let other = 0x8001_0020 ^ 1 << bit;
        assert_eq!(refused(&[0x0001_0020, 0, other, 0]), Some(at(4, 2)), "bit {bit}");
    }
}

#[test]
fn refusal_5_kind_3() {
    assert_eq!(refused(&[0x8000_0030]), Some(of(5)));
    assert_eq!(refused(&[0x8000_00B0]), Some(of(5)));
    assert_eq!(refused(&[0xF000_0030]), Some(of(5)), "5 before 6");
    assert_eq!(refused(&[0x0001_0020, 0, 0x8000_0030]), Some(at(4, 2)), "later it is 4");
}

#[test]
fn refusal_6_reserved() {
    for bit in 28..31 {
        assert_eq!(refused(&[READ[0] | 1 << bit, 0]), Some(of(6)), "bit {bit}");
        assert_eq!(refused(&[0x0001_0020, 0, READ[0] | 1 << bit, 0]), Some(at(6, 2)));
    }
    assert_eq!(refused(&[0x9000_0020]), Some(of(6)), "6 before 7");
}

#[test]
fn refusal_7_count() {
    assert_eq!(refused(&[0x8000_0020, 0]), Some(of(7)));
    assert_eq!(refused(&[0x8000_0010, 0]), Some(of(7)));
    assert_eq!(refused(&[0x8003_0000, 0, 0, 0]), Some(of(7)));
    assert_eq!(refused(&[0x8000_0000]), None, "a NOP may have none");
    assert_eq!(refused(&[0x8002_0000, 0, 0]), None);
    assert_eq!(refused(&[0x8000_1010]), Some(of(7)), "7 before 8, and before 3");
}

#[test]
fn refusal_8_enables() {
    for byte1 in 0..=0xFF {
        let (first, last) = (byte1 & 0xF, byte1 >> 4);
        let one = refused(&[0x8001_0010 | byte1 << 8, 0, 0]);
        assert_eq!(one, (last != 0).then_some(of(8)), "count 1, byte 1 {byte1:02X}");
        let two = |address| refused(&[0x8002_0010 | byte1 << 8, address, 0, 0]);
        let gaps = (first == 0 || last == 0).then_some(of(8));
        assert_eq!((two(0), two(8)), (gaps, gaps), "count 2, byte 1 {byte1:02X}");
        let whole = [8, 12, 14, 15].contains(&first) && [1, 3, 7, 15].contains(&last);
        let no_gaps = (!whole).then_some(of(8));
        assert_eq!((two(4), two(12)), (no_gaps, no_gaps), "no multiple of 8, {byte1:02X}");
        assert_eq!((two(9), two(10)), (no_gaps, no_gaps), "nor of 4, byte 1 {byte1:02X}");
        let three = refused(&[0x8003_0010 | byte1 << 8, 8, 0, 0, 0]);
        assert_eq!(three, no_gaps, "count 3, byte 1 {byte1:02X}");
        let wide = |low| refused(&[0x8002_0050 | byte1 << 8, low, 1, 0, 0]);
        assert_eq!((wide(8), wide(12)), (gaps, no_gaps), "past 2^32, byte 1 {byte1:02X}");
        assert_eq!(refused(&[0x8002_0020 | byte1 << 8, 0]), None, "reads: not looked at");
        assert_eq!(refused(&[0x8000_0000 | byte1 << 8]), None, "NOPs: not looked at");
    }
    assert_eq!(refused(&[0x8001_1F10]), Some(of(3)), "3 (address) before 8");
    assert_eq!(refused(&[0x8001_1F50, 0]), Some(of(3)), "the second address word too");
    assert_eq!(refused(&[0x8001_1F10, 0]), Some(of(8)), "8 before 3 (data)");
}

#[test]
fn refusal_9_words_after_last() {
    assert_eq!(refused(&[0x8001_0020, 0, 0]), Some(of(9)));
    assert_eq!(refused(&[0x8001_0020, 0, 0x8001_0020, 0]), Some(of(9)));
    assert_eq!(refused(&[0x8000_0000, 0]), Some(of(9)));
    assert_eq!(refused(&[0x8001_0F10, 0, 0, 0xFFFF_FFFF]), Some(of(9)));
}

#[test]
fn refusal_10_long_answer() {
    let count = |words: usize| (words as u32) << 16;
    let two = |first, second| [0x20 | count(first), 0, 0x8000_0020 | count(second), 0];
    assert_eq!(refused(&two(1, WORDS - 3)), None);
    assert_eq!(refused(&two(1, WORDS - 2)), Some(of(10)));
    assert_eq!(refused(&[0x8FFF_0020, 0]), Some(of(10)));
    assert_eq!(refused(&[0x8FFF_00A0, 0]), Some(of(10)), "a discovery too");
    let long = [0x8FFF_0020, 0];
    assert_eq!(Bench::with_tag(0).give(&long), Err(of(10)), "a repeat too");
    assert_eq!(Bench::with_tag(7).give(&long), Err(of(10)), "10 before 11");
    assert_eq!(refused(&[0x0FFF_0020, 0, 0x9001_0020, 0]), Some(at(6, 2)), "the walk comes first");
}

/// So many held back from each tag, and each tag that comes: as it is kept, with other bytes, and as
/// a discovery.
#[test]
fn refusal_11_out_of_step() {
    let all = (0..=4).flat_map(|many| (0..16).map(move |newest| (many, newest)));
    for (many, newest) in all {
        let bench = Bench::with_tags(newest, many);
        let next = if many == 0 { 0 } else { (newest + 1) % 16 };
        for tag in 0..16 {
            let repeat = (0..many).any(|back| (tag + back) % 16 == newest);
            let what = format!("{many} held back from {newest}, tag {tag}");
            let given = bench.clone().give(&[0x8000_0000 | tag]).err();
            assert_eq!(given, (tag != next && !repeat).then_some(of(11)), "{what}");
            let other = bench.clone().give(&[0x8001_0020 | tag, 0]).err();
            assert_eq!(other, if repeat { Some(of(12)) } else { given }, "{what}, other bytes");
            let discovery = bench.clone().give(&[0x8001_00A0 | tag, 0]).err();
            assert_eq!(discovery, None, "{what}, a discovery");
        }
    }
}

const A: [u32; 3] = [0x8001_0F10, 0x0000_0004, 0xFEED_C0DE];

/// Messages of the bench sheet's (a)'s tag with other bytes, each well-formed.
const OTHERS: [(&str, &[u32]); 9] = [
    ("another data word", &[0x8001_0F10, 0x0000_0004, 0]),
    ("another first data byte", &[0x8001_0F10, 0x0000_0004, 0xFEED_C0DF]),
    ("another last byte", &[0x8001_0F10, 0x0000_0004, 0x7EED_C0DE]),
    ("another address", &[0x8001_0F10, 0x0000_0008, 0xFEED_C0DE]),
    ("other enables", &[0x8001_0710, 0x0000_0004, 0xFEED_C0DE]),
    ("byte 0 alone: a read of a wide address", &[0x8001_0F60, 0x0000_0004, 0xFEED_C0DE]),
    ("another kind, and shorter", &[0x8001_0F20, 0x0000_0004]),
    ("a wide address, and longer", &[0x8001_0F50, 0x0000_0004, 0, 0xFEED_C0DE]),
    ("a second write", &[0x0001_0F10, 4, 0xFEED_C0DE, 0x8001_0F10, 8, 0xFEED_C0DE]),
];

#[test]
fn refusal_12_other_bytes() {
    for (what, other) in OTHERS {
        let mut bench = Bench::sheet();
        assert_eq!(bench.give(&A), Ok(vec![0x8000_0030]));
        assert_eq!(bench.give(other), Err(of(12)), "{what}");
        assert_eq!(bench.give(&A), Ok(vec![0x8000_0030]), "{what}: (a) is kept");
        let mut bench = Bench::sheet();
        bench.give(other).unwrap();
        assert_eq!(bench.give(&A), Err(of(12)), "{what}, the other way");
    }
}

#[test]
fn refusal_12_byte_1_of_a_read_counts() {
    let mut bench = Bench::sheet();
    let sent = bench.give(&[0x8001_0020, 0x0000_0010]);
    assert_eq!(sent, Ok(vec![0x8001_0030, 0xF00D_FACE]));
    assert_eq!(bench.give(&[0x8001_1120, 0x0000_0010]), Err(of(12)));
    assert_eq!(bench.give(&[0x8001_0020, 0x0000_0010]), sent);
    let mut bench = Bench::sheet();
    assert_eq!(bench.give(&[0x8001_0000, 4]), Ok(vec![0x8001_0030, BYTES as u32]));
    assert_eq!(bench.give(&[0x8001_0000, 5]), Err(of(12)), "and what a NOP carries");
}

#[test]
fn refusal_12_looks_at_what_was_new() {
    let mut bench = Bench::sheet();
    bench.give(&A).unwrap();
    let discovery = [0x8001_0F90, 0x0000_0004, 0];
    assert_eq!(bench.give(&discovery), Ok(vec![0x8000_00B0]));
    assert_eq!(bench.give(&A), Ok(vec![0x8000_0030]), "a discovery is not kept");
    assert_eq!(bench.memory[1], 0, "nor carried out again");
    assert_eq!(bench.give(&[0x8001_0F12, 4, 0]), Err(of(11)));
    assert_eq!(bench.give(&A), Ok(vec![0x8000_0030]), "nor is what is refused");
    let past_the_end = [0x8001_0F11, 0x0000_0020, 7];
    assert_eq!(bench.give(&past_the_end), Ok(vec![0x8000_0231]));
    assert_eq!(bench.give(&past_the_end), Ok(vec![0x8000_0231]), "one that ends in Error is");
    assert_eq!(bench.give(&[0x8001_0F11, 0x0000_0020, 8]), Err(of(12)));
    assert_eq!(bench.give(&A), Ok(vec![0x8000_0030]), "and so is the one before it");
    assert_eq!(bench.give(&[A[0], A[1], 0]), Err(of(12)), "each by its own bytes");
}

#[test]
fn refusal_12_comes_last() {
    let mut bench = Bench::sheet();
    bench.give(&A).unwrap();
    assert_eq!(bench.give(&[0x88C3_0020, 0]), Err(of(10)));
    assert_eq!(bench.give(&[0x8000_0F10, 4]), Err(of(7)));
    assert_eq!(bench.give_bytes(&bytes_of(&A)[..11]), Err(of(2)));
    assert_eq!(bench.give(&A[..2]), Err(of(3)), "the kept request, cut short");
    assert_eq!(bench.give(&[&A[..], &[0]].concat()), Err(of(9)), "and with a word more");
    for tag in 2..16 {
        assert_eq!(bench.give(&[0x8001_0F10 | tag, 4, 0]), Err(of(11)), "tag {tag}");
    }
    bench.tags.request[0] = 0;
    assert_eq!(bench.give(&[0x8001_0F10, 4, 0]), Err(of(1)));
}

/// The record says how long the kept request is: what stands behind it in its buffer is nothing.
#[test]
fn refusal_12_by_the_length_of_the_record() {
    let longer = [&A[..], &[7]].concat();
    for (request, expected) in [(1, Err(of(12))), (2, Err(of(12))), (4, Err(of(12))), (3, Ok(()))] {
        let mut bench = Bench::sheet().holding(&longer);
        bench.tags.request[0] = request;
        assert_eq!(bench.give(&A).map(|_| ()), expected, "{request} words");
    }
    let mut bench = Bench::sheet().holding(&longer);
    bench.tags.request[0] = WORDS as u32;
    assert_eq!(bench.give(&A), Err(of(12)));
}

#[test]
fn refusal_12_any_byte_of_the_longest_request() {
    let mut write = vec![0x8000_FF10 | (WORDS as u32 - 2) << 16, 0];
    write.extend((0..WORDS as u32 - 2).map(|word| word.wrapping_mul(0x9E37_79B9)));
    let (mut bench, datagram) = (Bench::sheet().holding(&write), bytes_of(&write));
    bench.stored[0] = 0x8000_0230;
    for place in 0..BYTES {
        bench.kept[place] ^= 1 << (place % 8);
        assert_eq!(bench.give_bytes(&datagram), Err(of(12)), "byte {place}");
        bench.kept[place] ^= 1 << (place % 8);
    }
    assert_eq!(bench.give_bytes(&datagram), Ok(vec![0x8000_0230]));
}

#[test]
fn the_first_faulty_header_decides() {
    let write = [0x0001_0F10, 0, 7];
    let with = |rest: &[u32]| refused(&[&write[..], rest].concat());
    assert_eq!(with(&[0x0000_0F10, 0xFFFF_FFFF]), Some(at(7, 3)));
    assert_eq!(with(&[0x0001_1F10, 0, 0, 0x9001_0F10]), Some(at(8, 3)));
    assert_eq!(with(&[0x8001_0F10, 0, 0, 0x9001_0F10]), Some(at(9, 3)));
    assert_eq!(with(&[0x8001_0F11, 0, 0]), Some(at(4, 3)));
    assert_eq!(with(&[]), Some(at(3, 3)));
}

#[test]
fn a_fault_at_the_end_leaves_nothing_written() {
    let mut words: Vec<u32> = (0..4).flat_map(|at| [0x0001_0F10, 4 * at, 0xAAAA_AAAA]).collect();
    words.extend([0x8001_1F10, 0, 0]);
    let mut bench = Bench::sheet();
    assert_eq!(bench.give_bytes(&bytes_of(&words)), Err(at(8, 12)));
    assert_eq!(bench, Bench::sheet());
}

/// Behind so many good writes, each fault that a later header can have is at that header.
#[test]
fn the_faulty_header_is_named() {
    let faults: [(u32, &[u32]); 9] = [
        (3, &[]),
        (3, &[0x8001_0F10]),
        (3, &[0x8001_0F10, 0]),
        (4, &[0x8001_0F11, 0, 0]),
        (4, &[0x8001_0030]),
        (6, &[0xC001_0F10, 0, 0]),
        (7, &[0x8000_0F10, 0]),
        (8, &[0x8002_A510, 12, 0, 0]),
        (9, &[0x8001_0F10, 0, 0, 0]),
    ];
    for before in 1..WORDS / 3 - 1 {
        for (number, fault) in faults {
            let words = [[0x0001_0F10, 0, 7].repeat(before).as_slice(), fault].concat();
            assert_eq!(refused(&words), Some(at(number, 3 * before)), "{before} {fault:?}");
        }
    }
}
