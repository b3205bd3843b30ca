//! Random requests: well-formed ones of each kind and mode, and damaged ones.

use super::{bytes_of, Random};
use crate::limits::WORDS;
use crate::plain::message::{commands, walk, Header, Kind, GREATEST_COUNT};

/// What all headers of a request share, and the memory that its addresses aim at.
#[derive(Clone, Copy, Debug)]
pub struct Wish {
    pub kind: Kind,
    pub tag: u32,
    pub wide: bool,
    pub discovery: bool,
    /// Words of memory.
    pub memory: usize,
}

impl Wish {
    /// Any kind and mode; a discovery now and then.
    pub fn random(random: &mut Random, tag: u32, memory: usize) -> Wish {
        Wish {
            kind: random.pick(&[Kind::Nop, Kind::Write, Kind::Write, Kind::Read, Kind::Read]),
            tag,
            wide: random.one_in(3),
            discovery: random.one_in(8),
            memory,
        }
    }

    fn byte0(&self) -> u32 {
        let kind = match self.kind {
            Kind::Nop => 0,
            Kind::Write => 1,
            Kind::Read => 2,
            Kind::Response => 3,
        };
        Header::byte0_of(kind, self.tag, self.wide, self.discovery)
    }

    fn fixed_words(&self) -> usize {
        1 + Header(self.byte0()).address_words()
    }
}

/// A well-formed request, its commands in or out of memory as it happens.
pub fn request(random: &mut Random, wish: Wish) -> Vec<u8> {
    let wanted = match random.below(8) {
        0 => WORDS,
        1 => random.between(10, 130),
        2..=4 => random.between(2, 6),
        _ => 1,
    };
    let mut words: Vec<u32> = Vec::new();
    let (mut answer, mut last) = (0, 0);
    for _ in 0..wanted {
        let room = Room { request: WORDS - words.len(), answer: WORDS - answer };
        let Some(count) = count(random, wish, room) else { break };
        last = words.len();
        add_command(random, wish, count, &mut words);
        answer += 1 + Header(words[last]).answer_count();
    }
    words[last] |= Header::LAST;
    bytes_of(&words)
}

/// Words left within the limit.
struct Room {
    request: usize,
    answer: usize,
}

/// A count that fits the room; none where no command does.
fn count(random: &mut Random, wish: Wish, room: Room) -> Option<usize> {
    let (least, most) = match wish.kind {
        Kind::Nop => (0, room.request.min(room.answer).min(3).checked_sub(1)?),
        Kind::Read if room.request < wish.fixed_words() => return None,
        Kind::Read => (1, room.answer.checked_sub(1)?.min(GREATEST_COUNT)),
        _ if room.answer == 0 => return None,
        _ => (1, room.request.checked_sub(wish.fixed_words())?.min(GREATEST_COUNT)),
    };
    if most < least {
        return None;
    }
    Some(match random.below(12) {
        0 => most,
        1 => random.between(least, most),
        2..=6 => least,
        _ => random.between(least, most.min(4)),
    })
}

fn add_command(random: &mut Random, wish: Wish, count: usize, words: &mut Vec<u32>) {
    let address = address(random, wish, count);
    let byte1 = match wish.kind {
        Kind::Write => enables(random, count, address),
        _ if random.one_in(2) => random.word() & 0xFF,
        _ => 0,
    };
    words.push(Header::new(wish.byte0(), byte1, count).0);
    if wish.kind != Kind::Nop {
        words.push(address as u32);
        words.extend(wish.wide.then_some((address >> 32) as u32));
    }
    if wish.kind != Kind::Read {
        words.extend(random.words(count));
    }
}

/// Byte 1 of a write, allowed for its count and its address.
pub fn enables(random: &mut Random, count: usize, address: u64) -> u32 {
    let whole = random.one_in(2);
    match count {
        1 if whole => 0x0F,
        1 => random.word() & 0xF,
        _ if whole => 0xFF,
        2 if address.is_multiple_of(8) => {
            random.between(1, 15) as u32 | (random.between(1, 15) as u32) << 4
        }
        _ => random.pick(&[0xF, 0xE, 0xC, 0x8]) | random.pick(&[0xF, 0x7, 0x3, 0x1]) << 4,
    }
}

/// An address, mostly of a range within memory, often just before or past its end.
pub fn address(random: &mut Random, wish: Wish, count: usize) -> u64 {
    let fits = wish.memory.saturating_sub(count) as u64;
    let place = match random.below(16) {
        0 => fits,
        1 => fits + 1,
        2 => wish.memory as u64,
        3 => (1 << 30) - random.between(1, 4) as u64,
        _ => random.below(fits as usize + 1) as u64,
    };
    let odd = if random.one_in(24) { random.between(1, 3) as u64 } else { 0 };
    let high = match random.below(8) {
        0 if wish.wide => 1,
        1 if wish.wide => random.long() | 1,
        _ => 0,
    };
    let high = if random.one_in(3) { high } else { 0 };
    (high << 32) | (4 * place + odd)
}

/// A request that was well-formed, changed in one of many ways; some changes do no harm.
pub fn damaged(random: &mut Random, request: &[u8]) -> Vec<u8> {
    let mut bytes = request.to_vec();
    match random.below(13) {
        0 => flip(random, &mut bytes, 1),
        1 => {
            let bits = random.between(2, 12);
            flip(random, &mut bytes, bits);
        }
        2 => bytes.truncate(random.below(request.len() + 1)),
        3 => bytes.truncate(4 * random.below(request.len() / 4 + 1)),
        4 => bytes.truncate(request.len() - 4),
        5 => {
            let more = random.between(1, 9);
            bytes.extend(random.bytes(more));
        }
        6 => {
            let more = 4 * random.between(1, 3);
            bytes.extend(random.bytes(more));
        }
        7 => lengthen(random, &mut bytes),
        8 => {
            let length = 4 * random.below(WORDS + 2);
            bytes = random.bytes(length);
        }
        9 => change_address(random, &mut bytes),
        _ => change_field(random, &mut bytes),
    }
    bytes
}

fn flip(random: &mut Random, bytes: &mut [u8], bits: usize) {
    for _ in 0..bits {
        let bit = random.below(8 * bytes.len());
        bytes[bit / 8] ^= 1 << (bit % 8);
    }
}

/// Adds words up to the limit, or a little past it.
fn lengthen(random: &mut Random, bytes: &mut Vec<u8>) {
    let length = 4 * WORDS - 4 + random.below(12);
    bytes.resize(length.max(bytes.len()), 0);
}

/// The place of one header, each alike often.
fn some_place(random: &mut Random, bytes: &[u8]) -> Option<usize> {
    let walked = walk(bytes).ok()?;
    let places: Vec<usize> = commands(&walked).map(|command| command.place).collect();
    Some(4 * random.pick(&places))
}

/// Moves one address to the word before or behind it, from or to a multiple of 8.
fn change_address(random: &mut Random, bytes: &mut [u8]) {
    let Some(place) = some_place(random, bytes) else { return };
    if let Some(low) = bytes.get_mut(place + 4) {
        *low ^= 4;
    }
}

/// Changes one field of one header, each place and each field alike often.
fn change_field(random: &mut Random, bytes: &mut [u8]) {
    let Some(place) = some_place(random, bytes) else { return };
    let header = &mut bytes[place..place + 4];
    let word = u32::from_le_bytes([header[0], header[1], header[2], header[3]]);
    header.copy_from_slice(&changed(random, word).to_le_bytes());
}

fn changed(random: &mut Random, header: u32) -> u32 {
    let (low, width) = random.pick(&[
        (0, 4),
        (4, 2),
        (6, 1),
        (7, 1),
        (8, 4),
        (12, 4),
        (8, 8),
        (16, 12),
        (16, 2),
        (16, 4),
        (28, 3),
        (31, 1),
    ]);
    let field = (1u32 << width) - 1;
    let value = match random.below(4) {
        0 => 0,
        1 => (header >> low).wrapping_add(1) & field,
        2 => (header >> low).wrapping_sub(1) & field,
        _ => random.word() & field,
    };
    header & !(field << low) | value << low
}
