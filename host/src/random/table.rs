//! Random inputs of the training table's calls: set-ups near their edges, attempts of any numbers, and
//! answers to their messages: true, with failed rows, with rows that differ, damaged, of other tags.

use super::building::output;
use super::requests::{request, Wish};
use super::sender::{damaged_answer, sender};
use super::{bytes_of, Random};
use crate::limits::{Rows, BYTES, ROWS, TABLE};
use crate::plain::message::{commands, walk, Header, Kind};
use crate::plain::table::{Attempt, DONE};
use crate::plain::Sender;

/// What making a message is lent.
#[derive(Clone, Debug)]
pub struct Making {
    pub output: Vec<u8>,
    pub attempt: Attempt,
    pub start: u64,
    pub room: u64,
    pub rows: Rows,
}

/// Mostly an attempt that has a message to send, at a sender where none waits.
pub fn making(random: &mut Random) -> Making {
    let tag = random.word() % 16;
    let idle = Sender { waiting: 0, ..sender(random, tag) };
    let sender = if random.one_in(8) { sender(random, tag) } else { idle };
    let (start, room) = set_up(random);
    let attempt = attempt(random, sender);
    Making { output: output(random), attempt, start, room, rows: rows(random) }
}

/// A set-up, mostly allowed: near both ends of what is, and past them.
pub fn set_up(random: &mut Random) -> (u64, u64) {
    let (least, most) = (TABLE as u64, 1 << 30);
    let any = random.long();
    let room = match random.below(16) {
        0 => random.pick(&[least - 1, 0, most, most + 1, most + 2, 1 << 62, u64::MAX, any]),
        1..=8 => least,
        _ => least + any % 16_384,
    };
    // The last start that the room allows, if it allows any.
    let last = (1u64 << 32).wrapping_sub(room.wrapping_mul(4));
    let start = match random.below(16) {
        0 => random.pick(&[last.wrapping_add(4), 1 << 32, u64::MAX, u64::MAX - 3, !any]),
        1 => (u64::from(random.word()) & !3) + random.between(1, 3) as u64,
        2 => last,
        3 => last.wrapping_sub(4),
        4..=8 => 4 * random.below(64) as u64,
        _ => (random.long() % last.max(1)) & !3,
    };
    (start, room)
}

/// What comes next is mostly a message. A row is said of attempts that have not ended, too.
fn attempt(random: &mut Random, sender: Sender) -> Attempt {
    let stage = match random.below(16) {
        0 => random.pick(&[4, 5, 6, u8::MAX]),
        1 => random.word() as u8,
        _ => random.below(4) as u8,
    };
    let row = if random.one_in(4) { random.word() as u8 } else { random.below(26) as u8 };
    Attempt { sender, stage, row }
}

/// Any rows; now and then all words of them alike.
pub fn rows(random: &mut Random) -> Rows {
    let mut rows = [[random.word(); 7]; ROWS];
    if !random.one_in(8) {
        rows.as_flattened_mut().copy_from_slice(&random.words(7 * ROWS));
    }
    rows
}

/// What taking an answer is lent.
#[derive(Clone, Debug)]
pub struct Taking {
    pub attempt: Attempt,
    pub message: Vec<u8>,
    pub answer: Vec<u8>,
    pub rows: Rows,
}

/// Mostly an attempt whose own message waits, and an answer near the true one.
pub fn taking(random: &mut Random) -> Taking {
    let tag = random.word() % 16;
    let rows = rows(random);
    let sender = sender(random, tag);
    let attempt = attempt(random, sender);
    let own = !random.one_in(12) && attempt.stage < DONE;
    let stage = if own { attempt.stage } else { random.below(4) as u8 };
    let message = match random.one_in(24) {
        true => {
            let wish = Wish::random(random, tag, 64);
            request(random, wish)
        }
        false => message_of(stage, tag, &rows),
    };
    let answer = answer(random, &message, &rows);
    Taking { attempt, message, answer, rows }
}

/// The message of a stage, at a start of 40 (hexadecimal).
fn message_of(stage: u8, tag: u32, rows: &Rows) -> Vec<u8> {
    let mut output = vec![0; BYTES];
    let mut attempt = Attempt { sender: Sender::idle(tag as u8), stage, row: 0 };
    let length = attempt.message(&mut output, 0x40, TABLE as u64, rows).expect("a message");
    output.truncate(length);
    output
}

/// An answer to a message: all OK, or failed at a command, or with words that differ; then, seldom,
/// damaged, of another tag, or cut short.
fn answer(random: &mut Random, message: &[u8], rows: &Rows) -> Vec<u8> {
    let failed = random.one_in(3).then(|| random.below(ROWS));
    let mut answer = answered(message, rows, failed, random.pick(&[1, 2]));
    if random.one_in(3) {
        alter_data(random, message, &mut answer);
    }
    match random.below(16) {
        0 => damaged_answer(random, &answer),
        1 => answered(&other_tag(random, message), rows, failed, 2),
        2 => answer[..random.below(answer.len() + 1)].to_vec(),
        _ => answer,
    }
}

/// The answer of a controller that has the rows, with this status where a command fails.
fn answered(message: &[u8], rows: &Rows, failed: Option<usize>, status: u32) -> Vec<u8> {
    let walked = walk(message).expect("well-formed");
    let mut words = Vec::new();
    for (k, command) in commands(&walked).enumerate() {
        let fails = failed == Some(k);
        let count = if fails { 0 } else { command.header.answer_count() };
        let ends = command.header.is_last() || fails;
        let last = if ends { Header::LAST } else { 0 };
        let status = if fails { status } else { 0 };
        words.push(Header::new(command.header.answer_byte0(), status, count).0 | last);
        let row = rows.get(k).map_or(&[][..], |row| row);
        let data =
            [k as u32 + 1].into_iter().chain(row.iter().copied()).chain(std::iter::repeat(0));
        words.extend(data.take(count));
        if ends {
            break;
        }
    }
    bytes_of(&words)
}

/// Alters a bit of the data of one or two commands, if there are any.
fn alter_data(random: &mut Random, message: &[u8], answer: &mut [u8]) {
    let rows = answer.len() / 36;
    let reads = Header(u32::from(message[0])).kind() == Kind::Read;
    for _ in 0..random.pick(&[1, 1, 2]) {
        if reads && rows > 0 {
            let word = 9 * random.below(rows) + random.between(1, 8);
            answer[4 * word + random.below(4)] ^= 1 << random.below(8);
        }
    }
}

/// The message under another tag.
fn other_tag(random: &mut Random, message: &[u8]) -> Vec<u8> {
    let other = random.between(1, 15) as u8;
    let mut altered = message.to_vec();
    let walked = walk(message).expect("well-formed");
    for command in commands(&walked) {
        altered[4 * command.place] ^= other;
    }
    altered
}
