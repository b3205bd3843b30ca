//! The controller end (the completer): one call for each datagram that arrives, refusals 1
//! to 12. The datagram is walked once, then carried out once; nothing is allocated.

use super::message::{self, Header, Kind, Walked, WordBytes};
use super::tags::{place_of, TagRecord, Verdict};
use crate::limits::{BYTES, KEPT, MEMORY, STORED, WORDS};
use crate::refusal::Refusal;

/// What a call gives back: the refusal (number 0 for none), and how many of the output's
/// first bytes are to be sent (0 with a refusal).
#[derive(Clone, Copy, Debug, PartialEq, Eq)]
pub struct Served {
    pub refusal: Refusal,
    pub sent: usize,
}

/// Serves one datagram. With a refusal nothing that was lent has changed.
#[inline(never)]
pub fn serve(
    memory: &mut [u32],
    stored: &mut [u32],
    kept: &mut [u8],
    output: &mut [u8],
    tags: &mut TagRecord,
    datagram: &[u8],
) -> Served {
    match answer_words(memory, stored, kept, output, tags, datagram) {
        Ok(words) => Served { refusal: Refusal::of(0), sent: 4 * words },
        Err(refusal) => Served { refusal, sent: 0 },
    }
}

/// The call itself; gives the words to be sent.
#[inline(always)]
fn answer_words(
    memory: &mut [u32],
    stored: &mut [u32],
    kept: &mut [u8],
    output: &mut [u8],
    tags: &mut TagRecord,
    datagram: &[u8],
) -> Result<usize, Refusal> {
    if !lengths_allowed(memory, stored, kept, output) || !tags.is_allowed() {
        return Err(Refusal::LENT);
    }
    let request = message::walk(datagram)?;
    let (output, _) = output.as_chunks_mut();
    let place = place_of(request.first.tag());
    let (kept, stored) = (&mut kept[BYTES * place..], &mut stored[WORDS * place..]);
    let verdict = tags.verdict(request.first)?;
    let stored = match verdict {
        Verdict::Repeat => {
            if kept[..4 * tags.request[place] as usize] != *datagram {
                return Err(Refusal::OTHER_BYTES);
            }
            return Ok(send_again(&stored[..tags.words[place] as usize], output));
        }
        Verdict::New => {
            kept[..datagram.len()].copy_from_slice(datagram);
            &mut stored[..request.answer]
        }
        Verdict::Discovery => &mut [],
    };
    let answer = Answer::new(&mut output[..request.answer], stored);
    let words = carry_out(memory, &request, tags, answer);
    if verdict == Verdict::New {
        tags.hold(request.first.tag(), words, request.words.len());
    }
    Ok(words)
}

fn lengths_allowed(memory: &[u32], stored: &[u32], kept: &[u8], output: &[u8]) -> bool {
    (1..=MEMORY).contains(&memory.len())
        && stored.len() >= STORED
        && kept.len() >= KEPT
        && output.len() >= BYTES
}

/// Sends the stored answer; gives its words.
fn send_again(stored: &[u32], output: &mut [WordBytes]) -> usize {
    for (out, word) in output.iter_mut().zip(stored) {
        *out = word.to_le_bytes();
    }
    stored.len()
}

/// Carries a well-formed message out, its commands in order up to the last or the first
/// Error; gives the words of the answer.
#[inline(always)]
fn carry_out(memory: &mut [u32], request: &Walked, tags: &TagRecord, mut answer: Answer) -> usize {
    match request.first.kind() {
        Kind::Nop => advertise(request.words, tags.advertisement(), &mut answer),
        Kind::Write => write_all(memory, request, &mut answer),
        Kind::Read => read_all(memory, request, &mut answer),
        Kind::Response => {}
    }
    answer.words
}

fn advertise(mut rest: &[WordBytes], advertisement: [u32; 2], answer: &mut Answer) {
    while let [header, body @ ..] = rest {
        let header = Header(u32::from_le_bytes(*header));
        answer.ok(header, header.count());
        answer.put_all(&advertisement[..header.count()]);
        rest = &body[header.count()..];
    }
}

#[inline(always)]
fn write_all(memory: &mut [u32], request: &Walked, answer: &mut Answer) {
    let wide = request.first.wide();
    let mut rest = request.words;
    while let [header, body @ ..] = rest {
        let header = Header(u32::from_le_bytes(*header));
        let (address, body) = split_address(body, wide);
        let Some(start) = start_of(memory, address, header.count()) else {
            return answer.error(header);
        };
        rest = write(&mut memory[start..], body, header);
        answer.ok(header, 0);
    }
}

#[inline(always)]
fn read_all(memory: &[u32], request: &Walked, answer: &mut Answer) {
    let wide = request.first.wide();
    let mut rest = request.words;
    while let [header, body @ ..] = rest {
        let header = Header(u32::from_le_bytes(*header));
        let (address, after) = split_address(body, wide);
        let Some(start) = start_of(memory, address, header.count()) else {
            return answer.error(header);
        };
        answer.ok(header, header.count());
        answer.put_all(&memory[start..start + header.count()]);
        rest = after;
    }
}

/// Takes the address, of one or two words, low first, off a command's body.
fn split_address(body: &[WordBytes], wide: bool) -> (u64, &[WordBytes]) {
    let low = u64::from(u32::from_le_bytes(body[0]));
    if wide {
        let high = u64::from(u32::from_le_bytes(body[1]));
        (high << 32 | low, &body[2..])
    } else {
        (low, &body[1..])
    }
}

/// The place in memory of the first of `count` words; none if the address is not a multiple
/// of 4 or the range passes the end. In 64 bits nothing wraps: the address is divided first.
fn start_of(memory: &[u32], address: u64, count: usize) -> Option<usize> {
    let start = address / 4;
    let inside = address.is_multiple_of(4) && start + count as u64 <= memory.len() as u64;
    inside.then_some(start as usize)
}

/// Writes the command's data to the words from `range` on; gives what follows the data. One
/// word goes by itself, for the reason given in the walk.
#[inline(always)]
fn write<'a>(range: &mut [u32], body: &'a [WordBytes], header: Header) -> &'a [WordBytes] {
    if header.count() == 1 {
        merge(&mut range[0], &body[0], header.first_enables());
        return &body[1..];
    }
    let (data, after) = body.split_at(header.count());
    write_range(&mut range[..header.count()], data, header);
    after
}

/// Writes two words or more: the first and last under their enables, all between whole. Kept
/// out of line, where the compiler knows that the two slices are apart and copies at once.
#[inline(never)]
fn write_range(range: &mut [u32], data: &[WordBytes], header: Header) {
    if let ([first, middle @ .., last], [new_first, new_middle @ .., new_last]) = (range, data) {
        merge(first, new_first, header.first_enables());
        for (word, new) in middle.iter_mut().zip(new_middle) {
            *word = u32::from_le_bytes(*new);
        }
        merge(last, new_last, header.last_enables());
    }
}

/// The bits of a word that each pattern of enables covers: bit i covers byte i.
const COVERED: [u32; 16] = {
    let mut covered = [0; 16];
    let mut enables = 0;
    while enables < 16 {
        let mut byte = 0;
        while byte < 4 {
            covered[enables] |= (enables as u32 >> byte & 1) * (0xFF << (8 * byte));
            byte += 1;
        }
        enables += 1;
    }
    covered
};

/// Changes exactly the enabled bytes of a word.
fn merge(word: &mut u32, new: &WordBytes, enables: u32) {
    let covered = COVERED[enables as usize & 15];
    *word = *word & !covered | u32::from_le_bytes(*new) & covered;
}

/// The answer as it grows in the output.
struct Answer<'a> {
    output: &'a mut [WordBytes],
    stored: &'a mut [u32],
    words: usize,
}

impl<'a> Answer<'a> {
    /// Status Error.
    const ERROR: u32 = 2;

    fn new(output: &'a mut [WordBytes], stored: &'a mut [u32]) -> Answer<'a> {
        Answer { output, stored, words: 0 }
    }

    /// The header of a command that is OK; LAST where the request has it.
    fn ok(&mut self, asked: Header, count: usize) {
        let last = asked.0 & Header::LAST;
        self.put(Header::new(asked.answer_byte0(), 0, count).0 | last);
    }

    /// The header of a command that failed: always the last.
    fn error(&mut self, asked: Header) {
        self.put(Header::new(asked.answer_byte0(), Answer::ERROR, 0).0 | Header::LAST);
    }

    fn put(&mut self, word: u32) {
        self.output[self.words] = word.to_le_bytes();
        if let Some(place) = self.stored.get_mut(self.words) {
            *place = word;
        }
        self.words += 1;
    }

    fn put_all(&mut self, words: &[u32]) {
        let end = self.words + words.len();
        for (out, word) in self.output[self.words..end].iter_mut().zip(words) {
            *out = word.to_le_bytes();
        }
        if let Some(place) = self.stored.get_mut(self.words..end) {
            place.copy_from_slice(words);
        }
        self.words = end;
    }
}
