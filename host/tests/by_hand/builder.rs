//! Building a message: refusals 21 to 26 by hand, and what each call writes.

use crate::common::{of, words_of, Ends, Given};
use crate::Ours;
use charkhavo_host::limits::{BYTES, WORDS};
use charkhavo_host::plain::{Addition, Building};

const NOTHING: Addition = Addition { address: 0, first: 0, last: 0, count: 0, data: &[] };

fn write(address: u64, first: u32, last: u32, data: &[u32]) -> Addition<'_> {
    Addition { address, first, last, data, ..NOTHING }
}

fn read(address: u64, count: usize) -> Addition<'static> {
    Addition { address, count, ..NOTHING }
}

/// A record to begin over, every field of it odd: an accepted begin leaves none, a refused all.
const ODD: Building = Building {
    kind: 9,
    tag: 99,
    wide: true,
    discovery: true,
    words: 77,
    last: 88,
    answer: usize::MAX,
    closed: true,
};

/// A message being built, its output full of a mark.
struct Bench {
    record: Building,
    output: Vec<u8>,
}

impl Bench {
    fn begin(kind: u32, wide: bool) -> Bench {
        Bench::begin_as(vec![0x77; BYTES], kind, 3, wide, false)
    }

    fn begin_as(output: Vec<u8>, kind: u32, tag: u32, wide: bool, discovery: bool) -> Bench {
        let (refusal, record) = Ours::begin(&output, ODD, kind, tag, wide, discovery);
        assert_eq!(refusal, of(0));
        let begun = Building { kind, tag, wide, discovery, ..Building::EMPTY };
        assert_eq!(record, begun);
        Bench { record, output }
    }

    /// Adds; a refusal must leave record and output alone.
    fn add(&mut self, addition: Addition) -> u32 {
        let before = self.output.clone();
        let done = Ours::add(&mut self.output, self.record, addition);
        self.checked(done, before)
    }

    fn close(&mut self) -> u32 {
        let before = self.output.clone();
        let done = Ours::close(&mut self.output, self.record);
        self.checked(done, before)
    }

    fn checked(&mut self, (refusal, record): Given<Building>, output: Vec<u8>) -> u32 {
        assert_eq!(refusal.at, 0, "building has no header word to name");
        if refusal.number != 0 {
            assert_eq!((record, &self.output), (self.record, &output));
        }
        self.record = record;
        refusal.number
    }

    fn words(&self) -> Vec<u32> {
        assert!(self.output[4 * self.record.words..].iter().all(|byte| *byte == 0x77));
        words_of(&self.output[..4 * self.record.words])
    }
}

#[test]
fn a_write_of_two_commands() {
    let mut bench = Bench::begin(1, false);
    assert_eq!(bench.add(write(0x10, 0xF, 0, &[7])), 0);
    assert_eq!(bench.words(), [0x0001_0F13, 0x10, 7]);
    assert_eq!(bench.add(write(0x20, 0x8, 0x1, &[1, 2])), 0);
    assert_eq!(bench.close(), 0);
    assert_eq!(bench.words(), [0x0001_0F13, 0x10, 7, 0x8002_1813, 0x20, 1, 2]);
    let expected = Building { words: 7, last: 3, answer: 2, closed: true, ..bench.record };
    assert_eq!(bench.record, expected);
}

#[test]
fn wide_reads_and_discoveries() {
    let mut bench = Bench::begin_as(vec![0x77; BYTES + 9], 2, 15, true, true);
    let ignored = Addition { first: 99, last: 99, data: &[5; 5000], ..read(1 << 40, 9) };
    assert_eq!(bench.add(ignored), 0);
    assert_eq!(bench.close(), 0);
    assert_eq!(bench.words(), [0x8009_00EF, 0, 0x100]);
    assert_eq!((bench.record.words, bench.record.answer), (3, 10));
}

#[test]
fn nops_carry_their_words_and_no_address() {
    let mut bench = Bench::begin(0, true);
    let ignored = Addition { address: u64::MAX, first: 99, last: 99, count: 77, data: &[] };
    assert_eq!(bench.add(ignored), 0);
    assert_eq!(bench.add(Addition { data: &[8, 9], ..ignored }), 0);
    assert_eq!(bench.words(), [0x0000_0043, 0x0002_0043, 8, 9]);
    assert_eq!((bench.record.last, bench.record.answer), (1, 4));
}

#[test]
fn refusal_21_at_begin() {
    let begin = |length, kind, tag| Ours::begin(&vec![0; length], ODD, kind, tag, true, true);
    assert_eq!(begin(BYTES, 2, 15).0, of(0));
    for (length, kind, tag) in [(BYTES - 1, 0, 0), (BYTES, 3, 0), (BYTES, 0, 16), (0, 9, 99)] {
        assert_eq!(begin(length, kind, tag), (of(21), ODD));
    }
}

#[test]
fn refusal_21_of_records_that_cannot_be() {
    let spoilt = |spoil: fn(&mut Building)| {
        let mut bench = Bench::begin(1, false);
        assert_eq!(bench.add(write(0, 0xF, 0, &[1])), 0);
        spoil(&mut bench.record);
        let refused = (bench.add(write(0, 0xF, 0, &[1])), bench.close());
        assert!((refused.0 == 21) == (refused.1 == 21));
        refused.0
    };
    assert_eq!(spoilt(|_| ()), 0);
    assert_eq!(spoilt(|record| record.closed = true), 22);
    assert_eq!(spoilt(|record| record.words = 2), 21);
    assert_eq!(spoilt(|record| record.words = WORDS + 1), 21);
    assert_eq!(spoilt(|record| record.words = usize::MAX), 21);
    assert_eq!(spoilt(|record| record.last = 1), 21);
    assert_eq!(spoilt(|record| record.last = usize::MAX), 21);
    assert_eq!(spoilt(|record| record.answer = 0), 21);
    assert_eq!(spoilt(|record| record.answer = 2), 21);
    assert_eq!(spoilt(|record| record.kind = 2), 21);
    assert_eq!(spoilt(|record| record.kind = 3), 21);
    assert_eq!(spoilt(|record| record.tag = 16), 21);
    assert_eq!(spoilt(|record| record.wide = true), 21);
    assert_eq!(spoilt(|record| record.discovery = true), 0);
    let nothing = Building { closed: true, ..Building::EMPTY };
    assert_eq!(Ours::close(&mut vec![0; BYTES], nothing), (of(21), nothing));
}

#[test]
fn refusal_21_of_a_short_output() {
    let mut bench = Bench::begin(0, false);
    bench.output.pop();
    assert_eq!(bench.add(NOTHING), 21);
    assert_eq!(bench.close(), 21, "21 before 22");
}

#[test]
fn refusal_22() {
    let mut bench = Bench::begin(2, false);
    assert_eq!(bench.close(), 22, "nothing added");
    assert_eq!(bench.add(read(0, 1)), 0);
    assert_eq!(bench.close(), 0);
    assert_eq!(bench.close(), 22, "closed twice");
    assert_eq!(bench.add(read(1 << 32, 0)), 22, "22 before 23 and 25");
}

#[test]
fn refusal_23() {
    assert_eq!(Bench::begin(2, false).add(read(0, 0)), 23);
    assert_eq!(Bench::begin(2, false).add(read(0, 4096)), 23);
    assert_eq!(Bench::begin(2, false).add(read(1 << 32, usize::MAX)), 23, "23 before 25");
    assert_eq!(Bench::begin(1, false).add(write(0, 99, 99, &[])), 23, "23 before 24");
    assert_eq!(Bench::begin(1, false).add(write(0, 0xF, 0xF, &[0; 4096])), 23, "before 26");
    assert_eq!(Bench::begin(0, false).add(write(0, 0, 0, &[0; 3])), 23);
}

#[test]
fn refusal_24() {
    let add = |first, last, data: &[u32]| Bench::begin(1, false).add(write(0, first, last, data));
    assert_eq!(add(0, 0, &[1]), 0);
    assert_eq!(add(5, 1, &[1]), 24);
    assert_eq!(add(16, 0, &[1]), 24);
    assert_eq!(add(0, 1, &[1, 2]), 24);
    assert_eq!(add(1, 0, &[1, 2]), 24);
    assert_eq!(add(1, 16, &[1, 2]), 24);
    assert_eq!(add(9, 5, &[1, 2]), 0);
    assert_eq!(Bench::begin(1, false).add(write(1 << 32, 0, 0, &[1, 2])), 24, "24 before 25");
}

#[test]
fn refusal_24_of_gaps() {
    let add = |address, data: &[u32]| Bench::begin(1, false).add(write(address, 5, 10, data));
    assert_eq!(add(8, &[1, 2]), 0);
    assert_eq!(add(12, &[1, 2]), 24);
    assert_eq!(add(9, &[1, 2]), 24);
    assert_eq!(add(8, &[1, 2, 3]), 24);
    assert_eq!(add((1 << 32) + 8, &[1, 2]), 25);
    assert_eq!(add((1 << 32) + 12, &[1, 2]), 24, "24 before 25");
    let wide = |address| Bench::begin(1, true).add(write(address, 5, 10, &[1, 2]));
    assert_eq!((wide(u64::MAX - 7), wide(u64::MAX - 3)), (0, 24));
    let mut bench = Bench::begin(1, false);
    assert_eq!(bench.add(write(8, 5, 10, &[0x1122_3344, 0x5566_7788])), 0);
    assert_eq!(bench.close(), 0);
    assert_eq!(bench.words(), [0x8002_A513, 8, 0x1122_3344, 0x5566_7788]);
}

#[test]
fn refusal_25() {
    let narrow = |kind, addition| Bench::begin(kind, false).add(addition);
    assert_eq!(narrow(1, write(u32::MAX.into(), 1, 0, &[1])), 0);
    assert_eq!(narrow(1, write(1 << 32, 1, 0, &[1])), 25);
    assert_eq!(narrow(2, read(u64::MAX, 4095)), 25, "25 before 26");
    assert_eq!(narrow(0, Addition { address: u64::MAX, ..NOTHING }), 0);
    assert_eq!(Bench::begin(1, true).add(write(u64::MAX, 1, 0, &[1])), 0);
}

#[test]
fn refusal_26() {
    let data = [0; WORDS];
    assert_eq!(Bench::begin(1, false).add(write(0, 15, 15, &data[..WORDS - 2])), 0);
    assert_eq!(Bench::begin(1, false).add(write(0, 15, 15, &data[..WORDS - 1])), 26);
    assert_eq!(Bench::begin(1, true).add(write(0, 15, 15, &data[..WORDS - 2])), 26);
    let mut bench = Bench::begin(2, false);
    assert_eq!(bench.add(read(0, WORDS)), 26);
    assert_eq!(bench.add(read(0, WORDS - 2)), 0);
    assert_eq!(bench.add(read(0, 1)), 26, "the answer has no room");
    assert_eq!(bench.close(), 0);
    let mut bench = Bench::begin(0, false);
    for _ in 0..WORDS {
        assert_eq!(bench.add(NOTHING), 0);
    }
    assert_eq!(bench.add(NOTHING), 26, "the request has no room");
}
