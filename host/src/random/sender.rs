//! Random inputs of the sender's calls: sender records, requests, and answers that are true,
//! damaged, made up, or of another message.

use super::requests::{damaged, request, Wish};
use super::{bytes_of, Random};
use crate::limits::{BYTES, KEPT, PLACES, STORED};
use crate::plain::message::{commands, walk, Header};
use crate::plain::sender::DISCOVERY;
use crate::plain::{serve, Sender, TagRecord};
use std::array;
use std::cell::RefCell;

/// What a sender's call is lent.
#[derive(Clone, Debug)]
pub struct Lent {
    pub sender: Sender,
    pub request: Vec<u8>,
    pub answer: Vec<u8>,
}

/// Mostly a sender at which the request waits, well-formed, and an answer near the true one.
pub fn lent(random: &mut Random) -> Lent {
    let tag = random.word() % 16;
    let wish = Wish::random(random, tag, 64);
    let whole = request(random, wish);
    let answer = answer(random, &whole);
    let request = if random.one_in(6) { damaged(random, &whole) } else { whole };
    Lent { sender: sender(random, tag), request, answer }
}

/// A sender's record: mostly one at which a message of this tag waits, else one that it may be
/// offered to, or any. What it says of the others is anything.
pub fn sender(random: &mut Random, tag: u32) -> Sender {
    let mut answered = array::from_fn(|_| random.one_in(2));
    let (waiting, place) = match random.below(8) {
        0..=4 => {
            let waiting = random.between(1, PLACES);
            let place = random.below(waiting);
            if place > 0 && !random.one_in(8) {
                answered[place - 1] = false;
            }
            (waiting, place)
        }
        5 | 6 => {
            let waiting = random.below(PLACES);
            (waiting, waiting)
        }
        _ => (random.below(PLACES + 3), random.below(16)),
    };
    let next = match random.below(16) {
        0 => random.pick(&[16, 17, u8::MAX]),
        _ => (tag as u8 + 16 - place as u8) % 16,
    };
    Sender { next, waiting: waiting as u8, answered }
}

/// An answer to a well-formed request, of any sort.
pub fn answer(random: &mut Random, request: &[u8]) -> Vec<u8> {
    let answer = match random.below(4) {
        0 => made_up(random, request),
        1 => of_another(random, request),
        _ => true_answer(random, request),
    };
    if random.one_in(2) {
        damaged_answer(random, &answer)
    } else {
        answer
    }
}

thread_local! {
    /// Stored answers, kept requests and output of a controller, lent to one call after the other:
    /// what stands in them does not matter.
    static BUFFERS: RefCell<(Vec<u32>, Vec<u8>, Vec<u8>)> =
        RefCell::new((vec![0; STORED], vec![0; KEPT], vec![0; BYTES]));
}

/// What a controller over some memory, with this message new, answers.
pub fn true_answer(random: &mut Random, request: &[u8]) -> Vec<u8> {
    let words = random.between(1, 80);
    let mut memory = random.words(words);
    let header = Header(u32::from(request[0]));
    let newest = match header.discovery() {
        true => random.word() % 16,
        false => header.tag().wrapping_sub(1) % 16,
    };
    let mut tags = match header.discovery() && random.one_in(4) {
        true => TagRecord::fresh(),
        false => TagRecord { held: 1, tag: newest, words: [1; PLACES], request: [1; PLACES] },
    };
    BUFFERS.with_borrow_mut(|(stored, kept, output)| {
        let served = serve(&mut memory, stored, kept, output, &mut tags, request);
        output[..served.sent].to_vec()
    })
}

/// The answer to the same kind of message under another tag, or to another message.
fn of_another(random: &mut Random, request: &[u8]) -> Vec<u8> {
    if random.one_in(2) {
        let tag = u32::from(request[0]) + random.between(1, 15) as u32;
        let wish = Wish::random(random, tag % 16, 64);
        let other = super::requests::request(random, wish);
        return true_answer(random, &other);
    }
    let mut answer = true_answer(random, request);
    let other = random.between(1, 15) as u8;
    for place in header_places(&answer) {
        answer[place] ^= other;
    }
    answer
}

/// An answer of the right shape whose statuses, Timeout too, are drawn by lot.
fn made_up(random: &mut Random, request: &[u8]) -> Vec<u8> {
    let Ok(walked) = walk(request) else { return Vec::new() };
    let mut words = Vec::new();
    for command in commands(&walked) {
        let status = if random.one_in(6) { random.pick(&[1, 2]) } else { 0 };
        let count = if status == 0 { command.header.answer_count() } else { 0 };
        let ends = command.header.is_last() || status != 0;
        let last = if ends { Header::LAST } else { 0 };
        words.push(Header::new(command.header.answer_byte0(), status, count).0 | last);
        words.extend(random.words(count));
        if ends {
            break;
        }
    }
    bytes_of(&words)
}

/// An answer changed in one of the ways that a request is, or in a field of a header.
pub fn damaged_answer(random: &mut Random, answer: &[u8]) -> Vec<u8> {
    let places = header_places(answer);
    if places.is_empty() || random.one_in(2) {
        return if answer.len() < 4 { random.bytes(4) } else { damaged(random, answer) };
    }
    let mut bytes = answer.to_vec();
    let place = random.pick(&places);
    let bit = random.pick(&[0, 3, 4, 6, 7, 8, 9, 10, 12, 15, 16, 17, 20, 27, 28, 30, 31, 31]);
    bytes[place + bit / 8] ^= 1 << (bit % 8);
    bytes
}

/// Where the headers of an answer stand, in bytes, going by their counts.
fn header_places(answer: &[u8]) -> Vec<usize> {
    let (words, _) = answer.as_chunks();
    let mut places = Vec::new();
    let mut at = 0;
    while let Some(word) = words.get(at) {
        places.push(4 * at);
        at += 1 + Header(u32::from_le_bytes(*word)).count();
    }
    places
}

/// An answer to the fixed discovery: true, with any word 1, or damaged.
pub fn discovery_answer(random: &mut Random) -> Vec<u8> {
    let mut answer = true_answer(random, &DISCOVERY);
    if random.one_in(3) {
        let word = random.below(40) as u32 ^ if random.one_in(4) { random.word() } else { 0 };
        answer[8..].copy_from_slice(&word.to_le_bytes());
    }
    match random.below(6) {
        0 => damaged_answer(random, &answer),
        1 => made_up(random, &DISCOVERY),
        _ => answer,
    }
}
