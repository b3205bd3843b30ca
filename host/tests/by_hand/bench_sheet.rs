//! The bench sheet of document 01 and of the requests that have landed, line by line.

use crate::common::{at, held, of, Bench};
use charkhavo_host::limits::WORDS;
use charkhavo_host::plain::TagRecord;

const A: [u32; 3] = [0x8001_0F10, 0x0000_0004, 0xFEED_C0DE];

fn after_a() -> Bench {
    let mut bench = Bench::sheet();
    assert_eq!(bench.give(&A), Ok(vec![0x8000_0030]));
    bench
}

fn after_b() -> Bench {
    let mut bench = after_a();
    assert_eq!(bench.give(&[0x8001_0F90, 0x0000_0004, 0]), Ok(vec![0x8000_00B0]));
    assert_eq!(bench.give(&A), Ok(vec![0x8000_0030]));
    bench
}

#[test]
fn a_discovery_asks_for_one_word() {
    let mut bench = Bench::sheet();
    assert_eq!(bench.give(&[0x8001_0080, 0x0000_0004]), Ok(vec![0x8001_00B0, 0x0000_230C]));
    assert_eq!(bench, Bench { output: bench.output.clone(), ..Bench::sheet() });
}

#[test]
fn a_discovery_reads() {
    let sent = Bench::sheet().give(&[0x8001_00A0, 0x0000_0010]);
    assert_eq!(sent, Ok(vec![0x8001_00B0, 0xF00D_FACE]));
}

#[test]
fn a_discovery_writes_and_leaves_the_record_fresh() {
    let mut bench = Bench::sheet();
    assert_eq!(bench.give(&[0x8001_0F90, 0x0000_0004, 0xFEED_C0DE]), Ok(vec![0x8000_00B0]));
    assert_eq!(bench.memory, [0, 0xFEED_C0DE, 0, 0, 0xF00D_FACE, 0, 0, 0]);
    assert_eq!(bench.tags, TagRecord::fresh());
}

#[test]
fn a_is_carried_out() {
    let bench = after_a();
    assert_eq!(bench.memory, [0, 0xFEED_C0DE, 0, 0, 0xF00D_FACE, 0, 0, 0]);
    assert_eq!(bench.tags, held(0, &[(1, 3)]));
}

#[test]
fn b_repeats_without_writing() {
    let bench = after_b();
    assert_eq!(bench.memory[1], 0);
    assert_eq!(bench.tags, held(0, &[(1, 3)]));
}

#[test]
fn c_writes_one_byte() {
    let mut bench = after_b();
    assert_eq!(bench.give(&[0x8001_0411, 0x0000_0004, 0xAABB_CCDD]), Ok(vec![0x8000_0031]));
    assert_eq!(bench.memory, [0, 0x00BB_0000, 0, 0, 0xF00D_FACE, 0, 0, 0]);
    assert_eq!(bench.tags, held(1, &[(1, 3), (1, 3)]));
}

#[test]
fn d_is_out_of_step() {
    assert_eq!(after_a().give(&[0x8001_0F12, 0x0000_0004, 0]), Err(of(11)));
}

#[test]
fn after_tag_15_comes_tag_0() {
    let mut bench = Bench::with_tag(15);
    assert_eq!(bench.give(&A), Ok(vec![0x8000_0030]));
    assert_eq!(bench.memory[1], 0xFEED_C0DE);
    assert_eq!(bench.tags, held(0, &[(1, 3), (1, 1)]));
}

#[test]
fn a_read_past_the_end_fails() {
    let mut bench = Bench::sheet();
    assert_eq!(bench.give(&[0x8002_0020, 0x0000_001C]), Ok(vec![0x8000_0230]));
    assert_eq!(bench.tags, held(0, &[(1, 2)]));
}

#[test]
fn earlier_commands_stand() {
    let mut bench = Bench::sheet();
    let two = [0x0001_0F10, 0, 0x1111_1111, 0x8001_0F10, 0x0000_0020, 0x2222_2222];
    assert_eq!(bench.give(&two), Ok(vec![0x0000_0030, 0x8000_0230]));
    assert_eq!(bench.memory, [0x1111_1111, 0, 0, 0, 0xF00D_FACE, 0, 0, 0]);
}

#[test]
fn a_high_address_word_counts() {
    let mut bench = Bench::sheet();
    assert_eq!(bench.give(&[0x8001_0F50, 4, 1, 0]), Ok(vec![0x8000_0270]));
    assert_eq!(bench.memory, Bench::sheet().memory);
}

#[test]
fn another_tag_in_the_fifth_header() {
    let four = [0x0001_0F10, 0, 0x1111_1111].repeat(4);
    let mut bench = Bench::sheet();
    assert_eq!(bench.give(&[&four[..], &[0x8001_0F11, 4, 0x2222_2222]].concat()), Err(at(4, 12)));
    assert_eq!(bench, Bench::sheet());
}

#[test]
fn gaps_at_8_and_at_12() {
    let gapped = |address| [0x8002_A510, address, 0x1122_3344, 0x5566_7788];
    let mut bench = Bench::sheet();
    assert_eq!(bench.give(&gapped(12)), Err(of(8)));
    assert_eq!(bench, Bench::sheet());
    assert_eq!(bench.give(&gapped(8)), Ok(vec![0x8000_0030]));
    assert_eq!(bench.memory, [0, 0, 0x0022_0044, 0x5500_7700, 0xF00D_FACE, 0, 0, 0]);
    assert_eq!(bench.tags, held(0, &[(1, 4)]));
}

#[test]
fn short_datagrams_counts_and_reserved_bits() {
    let mut bench = Bench::sheet();
    assert_eq!(bench.give_bytes(&[]), Err(of(2)));
    assert_eq!(bench.give_bytes(&[0x10, 0x0F, 0x01]), Err(of(2)));
    assert_eq!(bench.give(&[0x8000_0F10, 4]), Err(of(7)));
    assert_eq!(bench.give(&[0x9001_0F10, 4, 0]), Err(of(6)));
}

#[test]
fn the_longest_read_and_one_more() {
    let read = |count: usize| [0x8000_0020 | (count as u32) << 16, 0];
    assert_eq!(Bench::sheet().give(&read(WORDS - 1)), Ok(vec![0x8000_0230]));
    assert_eq!(Bench::sheet().give(&read(WORDS)), Err(of(10)));
    assert_eq!(read(WORDS - 1), [0x88C2_0020, 0]);
    assert_eq!(read(WORDS), [0x88C3_0020, 0]);
}

#[test]
fn a_fresh_record_takes_tag_0_alone() {
    let mut bench = Bench::sheet();
    assert_eq!(bench.give(&[0x8001_0021, 0x0000_0010]), Err(of(11)));
    assert_eq!(bench.give(&[0x8001_0F1F, 0x0000_0004, 0xFEED_C0DE]), Err(of(11)));
    assert_eq!(bench, Bench::sheet());
}

/// Messages of tags 0 to 4, and what each sends.
const FIVE: [(&[u32], &[u32]); 5] = [
    (&A, &[0x8000_0030]),
    (&[0x8001_0021, 0x0000_0010], &[0x8001_0031, 0xF00D_FACE]),
    (&[0x8002_FF12, 0x0000_0008, 0x1111_1111, 0x2222_2222], &[0x8000_0032]),
    (&[0x8003_0023, 0x0000_0004], &[0x8003_0033, 0xFEED_C0DE, 0x1111_1111, 0x2222_2222]),
    (&[0x0001_0F14, 0, 0x3333_3333, 0x8001_0F14, 0x14, 0x4444_4444], &[0x0000_0034, 0x8000_0034]),
];

#[test]
fn the_last_four_again_and_no_older_one() {
    let mut bench = Bench::sheet();
    for (message, sent) in &FIVE[..4] {
        assert_eq!(bench.give(message), Ok(sent.to_vec()));
    }
    for (message, sent) in &FIVE[..4] {
        assert_eq!(bench.give(message), Ok(sent.to_vec()), "again");
    }
    assert_eq!(bench.give(&[0x8001_002F, 0x0000_0010]), Err(of(11)), "an older one");
    assert_eq!(bench.give(&[0x8001_0025, 0x0000_0010]), Err(of(11)), "an early one");
    assert_eq!(bench.tags, held(3, &[(4, 2), (1, 4), (2, 2), (1, 3)]));
    let (next, sent) = FIVE[4];
    assert_eq!(bench.give(next), Ok(sent.to_vec()));
    assert_eq!(bench.give(&A), Err(of(11)), "(a), an older one now");
    for (message, sent) in &FIVE[1..] {
        assert_eq!(bench.give(message), Ok(sent.to_vec()), "again");
    }
    let words =
        [0x3333_3333, 0xFEED_C0DE, 0x1111_1111, 0x2222_2222, 0xF00D_FACE, 0x4444_4444, 0, 0];
    assert_eq!(bench.memory, words);
    assert_eq!(bench.tags, held(4, &[(2, 6), (4, 2), (1, 4), (2, 2)]));
}
