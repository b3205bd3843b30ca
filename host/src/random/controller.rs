//! Random inputs of a controller call: buffers, record and datagram.

use super::requests::{damaged, request, Wish};
use super::Random;
use crate::limits::{BYTES, KEPT, MEMORY, PLACES, STORED, WORDS};
use crate::plain::TagRecord;
use std::array;

/// All that a controller call is lent. Clone it, give one to each implementation, and compare
/// what they make of it.
#[derive(Clone, Debug, PartialEq, Eq)]
pub struct Lent {
    pub memory: Vec<u32>,
    pub stored: Vec<u32>,
    pub kept: Vec<u8>,
    pub output: Vec<u8>,
    pub tags: TagRecord,
    pub datagram: Vec<u8>,
}

impl Lent {
    /// The kept request of a tag, where record and buffer are allowed.
    pub fn request(&self, tag: u32) -> &[u8] {
        let place = tag as usize % PLACES;
        &self.kept[BYTES * place..][..4 * self.tags.request[place] as usize]
    }
}

/// Any of them may be forbidden; most often all are allowed.
pub fn lent(random: &mut Random) -> Lent {
    let memory = memory_length(random);
    let mut tags = record(random);
    let tag = tag_near(random, &tags);
    let wish = Wish::random(random, tag, memory);
    let whole = request(random, wish);
    let datagram = if random.one_in(2) { damaged(random, &whole) } else { whole };
    let stored = length_from(random, STORED);
    let kept = length_from(random, KEPT);
    let output = length_from(random, BYTES);
    let mut kept = random.bytes(kept);
    let place = tag as usize % PLACES;
    match random.below(8) {
        0 => {}
        1 => {
            let another = request(random, wish);
            keep(random, &mut kept, &mut tags, place, &another);
        }
        2 => keep(random, &mut kept, &mut tags, (place + 1) % PLACES, &datagram),
        _ => keep(random, &mut kept, &mut tags, place, &datagram),
    }
    Lent {
        memory: random.words(memory),
        stored: random.words(stored),
        kept,
        output: random.bytes(output),
        tags,
        datagram,
    }
}

/// Keeps a request at a place, where buffer and record have room for it: mostly as it is, else with
/// a bit of one byte altered, or another length said of the same bytes.
fn keep(random: &mut Random, kept: &mut [u8], tags: &mut TagRecord, place: usize, request: &[u8]) {
    let (lengths, words) = (1..=WORDS, request.len() / 4);
    let held = lengths.contains(&(tags.request[place] as usize)) && lengths.contains(&words);
    let Some(kept) = kept.get_mut(BYTES * place..) else { return };
    if !held || request.len() > kept.len() {
        return;
    }
    kept[..request.len()].copy_from_slice(request);
    let mut said = words;
    match random.below(8) {
        0 | 1 => {
            let any = random.below(request.len());
            let byte = random.pick(&[0, 1, request.len() - 1, any]);
            kept[byte] ^= 1 << random.below(8);
        }
        2 => {
            let any = random.between(1, words);
            said = random.pick(&[any, words - 1]).max(1);
        }
        3 => {
            let any = random.between(words, WORDS);
            said = random.pick(&[any, words + 1]).min(WORDS);
        }
        _ => {}
    }
    tags.request[place] = said as u32;
}

/// Words of memory: mostly few, so that ranges pass the end; seldom none or too many.
pub fn memory_length(random: &mut Random) -> usize {
    match random.below(100) {
        0 => 0,
        1 => MEMORY + 1,
        2 => MEMORY,
        3..=12 => 1,
        13..=40 => WORDS + random.below(WORDS),
        _ => random.between(1, 40),
    }
}

/// A length that is mostly the least allowed or a little more.
pub fn length_from(random: &mut Random, least: usize) -> usize {
    match random.below(100) {
        0 => least - 1,
        1 => random.below(least),
        2..=60 => least,
        _ => least + random.below(20),
    }
}

/// A tag record: fresh (its other fields being anything), allowed, or wrong in a field. What it says
/// of places that are not held is anything.
pub fn record(random: &mut Random) -> TagRecord {
    let held = random.pick(&[1, 2, 3, 4, 4, 4]);
    let tag = random.word() % 16;
    let mut record = TagRecord { held, tag, words: lengths(random), request: lengths(random) };
    for back in held..PLACES as u32 {
        let place = place_behind(tag, back);
        (record.words[place], record.request[place]) = (any_length(random), any_length(random));
    }
    // Any place, held or not.
    let place = random.below(PLACES);
    match random.below(100) {
        0 => record.tag = 16,
        1 => record.tag = random.word(),
        2 => record.held = 5,
        3 => record.held = random.word(),
        4..=7 => record.words[place] = any_length(random),
        8..=11 => record.request[place] = any_length(random),
        12 => (record.held, record.tag) = (0, random.word()),
        13..=20 => record.held = 0,
        21..=24 => record = TagRecord::fresh(),
        _ => {}
    }
    record
}

/// The place of the message that is so far back from the newest.
fn place_behind(newest: u32, back: u32) -> usize {
    newest.wrapping_sub(back) as usize % PLACES
}

/// Lengths that a record may hold.
fn lengths(random: &mut Random) -> [u32; PLACES] {
    array::from_fn(|_| {
        let words = random.pick(&[1, 2, WORDS - 1, WORDS]).max(random.below(WORDS + 1));
        words as u32
    })
}

/// A length that a held place may have or not: near both ends of what is allowed, and any.
fn any_length(random: &mut Random) -> u32 {
    let most = WORDS as u32;
    let any = random.word();
    random.pick(&[0, 0, 1, most, most + 1, most + 1, any, any])
}

/// A tag that is mostly the next one or one that is held.
pub fn tag_near(random: &mut Random, tags: &TagRecord) -> u32 {
    let next = if tags.held == 0 { 0 } else { tags.tag.wrapping_add(1) % 16 };
    let back = random.below(6) as u32;
    match random.below(8) {
        0..=3 => next,
        4..=6 => tags.tag.wrapping_sub(back) % 16,
        _ => random.word() % 16,
    }
}
