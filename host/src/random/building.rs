//! Random building calls and building records.

use super::controller::length_from;
use super::{requests, Random};
use crate::limits::{BYTES, WORDS};
use crate::plain::{Addition, Building};

/// One call to the builder, numbers as they come.
#[derive(Clone, Debug)]
pub enum Call {
    Begin { kind: u32, tag: u32, wide: bool, discovery: bool },
    Add { address: u64, first: u32, last: u32, count: usize, data: Vec<u32> },
    Close,
}

impl Call {
    /// What `add` is lent, if this is one.
    pub fn addition(&self) -> Option<Addition<'_>> {
        match self {
            Call::Add { address, first, last, count, data } => Some(Addition {
                address: *address,
                first: *first,
                last: *last,
                count: *count,
                data,
            }),
            _ => None,
        }
    }
}

/// An output for building: mostly long enough.
pub fn output(random: &mut Random) -> Vec<u8> {
    let length = length_from(random, BYTES);
    random.bytes(length)
}

pub fn begin(random: &mut Random) -> Call {
    let kind = random.word() % 3;
    let tag = random.word() % 16;
    Call::Begin {
        kind: if random.one_in(20) { random.pick(&[3, 4, u32::MAX]) } else { kind },
        tag: if random.one_in(20) { random.pick(&[16, 17, u32::MAX]) } else { tag },
        wide: random.one_in(2),
        discovery: random.one_in(4),
    }
}

/// Mostly an addition that fits a record of this kind.
pub fn next(random: &mut Random, kind: u32) -> Call {
    if random.one_in(30) {
        return Call::Close;
    }
    let data = data_length(random, kind);
    let address = address(random);
    let (first, last) = enables(random, data, address);
    Call::Add { address, first, last, count: count(random), data: random.words(data) }
}

fn data_length(random: &mut Random, kind: u32) -> usize {
    match random.below(24) {
        0 => 0,
        1 => random.pick(&[WORDS - 3, WORDS - 2, WORDS - 1, WORDS, 4095, 4096, 5000]),
        2 => random.below(WORDS),
        _ if kind == 0 => random.below(4),
        3..=14 => 1,
        _ => random.between(2, 9),
    }
}

/// A read's count.
fn count(random: &mut Random) -> usize {
    match random.below(16) {
        0 => 0,
        1 => random.pick(&[4095, 4096, usize::MAX, WORDS - 1, WORDS]),
        2 => random.below(WORDS),
        _ => random.between(1, 6),
    }
}

/// Both fields, mostly allowed.
fn enables(random: &mut Random, data: usize, address: u64) -> (u32, u32) {
    let byte1 = requests::enables(random, data, address);
    match random.below(8) {
        0 => (field(random), byte1 >> 4),
        1 => (byte1 & 0xF, field(random)),
        _ => (byte1 & 0xF, byte1 >> 4),
    }
}

fn field(random: &mut Random) -> u32 {
    match random.below(16) {
        0 => 0,
        1 => random.pick(&[16, 0x1F, u32::MAX]),
        _ => random.between(1, 15) as u32,
    }
}

/// Any address, or a multiple of 8 or of 4.
fn address(random: &mut Random) -> u64 {
    match random.below(8) {
        0 => random.pick(&[u64::from(u32::MAX), 1 << 32, u64::MAX]),
        1 => random.long(),
        2..=4 => u64::from(random.word()) & !7,
        5 | 6 => u64::from(random.word()) & !3,
        _ => u64::from(random.word()),
    }
}

/// A building record with no history: about half can be, the others miss by little or much.
pub fn record(random: &mut Random) -> Building {
    let wide = random.one_in(2);
    let kind = random.word() % 3;
    let mut record = likely(random, kind, wide);
    for _ in 0..random.pick(&[0, 0, 0, 1, 1, 2]) {
        spoil(random, &mut record);
    }
    record
}

/// A record that calls could well have given.
fn likely(random: &mut Random, kind: u32, wide: bool) -> Building {
    let fixed = if wide { 3 } else { 2 };
    let commands = random.below(WORDS / fixed);
    let (mut words, mut last, mut answer) = (0, 0, 0);
    for _ in 0..commands {
        let count = if kind == 0 { random.below(3) } else { random.pick(&[1, 1, 1, 1, 2, 7]) };
        let (size, back) = match kind {
            0 => (1 + count, 1 + count),
            1 => (fixed + count, 1),
            _ => (fixed, 1 + count),
        };
        if words + size > WORDS || answer + back > WORDS {
            break;
        }
        (last, words, answer) = (words, words + size, answer + back);
    }
    let tag = random.word() % 16;
    let closed = words > 0 && random.one_in(3);
    Building { kind, tag, wide, discovery: random.one_in(3), words, last, answer, closed }
}

/// Changes one field, mostly by little.
fn spoil(random: &mut Random, record: &mut Building) {
    let field = random.below(8);
    let place = match field {
        0 | 1 => &mut record.words,
        2 | 3 => &mut record.last,
        4 | 5 => &mut record.answer,
        6 => return record.closed = !record.closed,
        _ => return record.kind = random.pick(&[0, 1, 2, 3, u32::MAX]),
    };
    *place = match random.below(8) {
        0 => random.long() as usize,
        1 => random.below(WORDS + 2),
        2 | 3 => place.wrapping_sub(random.between(1, 4)),
        _ => place.wrapping_add(random.between(1, 4)),
    };
}
