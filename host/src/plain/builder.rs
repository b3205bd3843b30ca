//! The loader end builds a message in a lent output: begin, add commands, close. Refusals 21
//! to 26, lowest number first; with one, nothing has changed.

use super::message::{enables_allowed, Header, GREATEST_COUNT, GREATEST_NOP_COUNT};
use crate::limits::{BYTES, WORDS};
use crate::refusal::Refusal;

const NOP: u32 = 0;
const WRITE: u32 = 1;
const READ: u32 = 2;

/// The building record. Its fields can be set by anybody; each call judges them first.
#[derive(Clone, Copy, Debug, PartialEq, Eq)]
pub struct Building {
    /// Begin's four: the kind is 0 NOP, 1 write, 2 read.
    pub kind: u32,
    pub tag: u32,
    pub wide: bool,
    pub discovery: bool,
    /// The words so far.
    pub words: usize,
    /// The place of the last header, in words; 0 if none.
    pub last: usize,
    /// The words of the all-OK answer so far.
    pub answer: usize,
    pub closed: bool,
}

/// A command to be added. What its kind has no use for is not looked at.
#[derive(Clone, Copy, Debug)]
pub struct Addition<'a> {
    /// Writes and reads.
    pub address: u64,
    /// Writes: first and last byte enables.
    pub first: u32,
    pub last: u32,
    /// Reads: how many words to read.
    pub count: usize,
    /// Writes and NOPs: the data; its length is their count.
    pub data: &'a [u32],
}

impl Building {
    /// A NOP of tag 0 with nothing added.
    pub const EMPTY: Building = Building {
        kind: NOP,
        tag: 0,
        wide: false,
        discovery: false,
        words: 0,
        last: 0,
        answer: 0,
        closed: false,
    };

    /// Begins a message in this record, whatever it holds. The output is only measured, so that
    /// a short one is told at once.
    pub fn begin(
        &mut self,
        output: &[u8],
        kind: u32,
        tag: u32,
        wide: bool,
        discovery: bool,
    ) -> Result<(), Refusal> {
        let building = Building { kind, tag, wide, discovery, ..Building::EMPTY };
        building.check(output)?;
        *self = building;
        Ok(())
    }

    /// Adds a command behind the last one; only its own bytes of the output change.
    pub fn add(&mut self, output: &mut [u8], added: Addition) -> Result<(), Refusal> {
        self.check(output)?;
        if self.closed {
            return Err(Refusal::CLOSING);
        }
        let count = if self.kind == READ { added.count } else { added.data.len() };
        self.check_command(count, &added)?;
        let header = Header::new(self.byte0(), self.byte1(&added), count);
        let words = self.words + header.request_words();
        let answer = self.answer + 1 + header.answer_count();
        if words > WORDS || answer > WORDS {
            return Err(Refusal::NO_ROOM);
        }
        self.put_command(&mut output[4 * self.words..4 * words], header, &added);
        *self = Building { words, last: self.words, answer, ..*self };
        Ok(())
    }

    /// Closes the message: sets LAST on the last header, and no other bit.
    pub fn close(&mut self, output: &mut [u8]) -> Result<(), Refusal> {
        self.check(output)?;
        if self.closed || self.words == 0 {
            return Err(Refusal::CLOSING);
        }
        output[4 * self.last + 3] |= 0x80;
        self.closed = true;
        Ok(())
    }

    /// 21: what every call asks first.
    fn check(&self, output: &[u8]) -> Result<(), Refusal> {
        let begun = self.kind <= READ && self.tag <= 15;
        if output.len() >= BYTES && begun && self.can_be() {
            Ok(())
        } else {
            Err(Refusal::BUILDING)
        }
    }

    /// 23 to 25. NOPs skip 24 and 25, reads skip 24.
    fn check_command(&self, count: usize, added: &Addition) -> Result<(), Refusal> {
        let counts = if self.kind == NOP { 0..=GREATEST_NOP_COUNT } else { 1..=GREATEST_COUNT };
        if !counts.contains(&count) {
            return Err(Refusal::ADDED_COUNT);
        }
        let fields = added.first <= 15 && added.last <= 15;
        let allowed = fields && enables_allowed(count, added.address, added.first, added.last);
        if self.kind == WRITE && !allowed {
            return Err(Refusal::ADDED_ENABLES);
        }
        if self.kind != NOP && !self.wide && added.address > u64::from(u32::MAX) {
            return Err(Refusal::ADDED_ADDRESS);
        }
        Ok(())
    }

    fn byte0(&self) -> u32 {
        Header::byte0_of(self.kind, self.tag, self.wide, self.discovery)
    }

    /// Byte 1: a write's enables; 0 for reads and NOPs.
    fn byte1(&self, added: &Addition) -> u32 {
        if self.kind == WRITE {
            added.first | added.last << 4
        } else {
            0
        }
    }

    /// Fills a command's bytes: header, address, data.
    fn put_command(&self, bytes: &mut [u8], header: Header, added: &Addition) {
        let address = [added.address as u32, (added.address >> 32) as u32];
        let data = if self.kind == READ { &[] } else { added.data };
        let words = [header.0]
            .into_iter()
            .chain(address[..header.address_words()].iter().copied())
            .chain(data.iter().copied());
        for (place, word) in bytes.chunks_exact_mut(4).zip(words) {
            place.copy_from_slice(&word.to_le_bytes());
        }
    }

    /// Whether some sequence of calls gives this record, kind and tag being allowed.
    fn can_be(&self) -> bool {
        if self.words == 0 {
            return self.last == 0 && self.answer == 0 && !self.closed;
        }
        self.words <= WORDS
            && (1..=WORDS).contains(&self.answer)
            && self.last < self.words
            && self.commands_can_be()
    }

    /// The same of a record with at least one command, its places being within the limit.
    fn commands_can_be(&self) -> bool {
        let fixed = if self.wide { 3 } else { 2 };
        let size = self.words - self.last;
        match self.kind {
            NOP => self.answer == self.words && size <= 1 + GREATEST_NOP_COUNT,
            READ => {
                size == fixed
                    && self.words.is_multiple_of(fixed)
                    && self.answer >= 2 * (self.words / fixed)
            }
            _ => size > fixed && self.earlier_writes_can_be(fixed + 1),
        }
    }

    /// Whether the writes before the last fill the words before it, each at least `least`.
    fn earlier_writes_can_be(&self, least: usize) -> bool {
        match self.answer - 1 {
            0 => self.last == 0,
            earlier => self.last >= earlier * least,
        }
    }
}
