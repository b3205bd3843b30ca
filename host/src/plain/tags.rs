//! The tag record: which messages are held, what a message's tag says against it, and what it then
//! holds. Refusal 11.

use super::message::Header;
use crate::limits::{BYTES, PLACES, WORDS};
use crate::refusal::Refusal;

/// What the controller keeps between calls besides memory, stored answers and kept requests: of the
/// last messages that were new, four at most. The answer and the request of each have a place, its
/// tag modulo four.
#[derive(Clone, Copy, Debug, PartialEq, Eq)]
pub struct TagRecord {
    /// How many are held; none while fresh, and the other fields are then not looked at.
    pub held: u32,
    /// The tag of the newest; those of the others go back from it by one, modulo 16.
    pub tag: u32,
    /// The length of the stored answer at each place.
    pub words: [u32; PLACES],
    /// The length of the kept request at each place, in words.
    pub request: [u32; PLACES],
}

impl TagRecord {
    /// The most messages held.
    pub const HELD: u32 = PLACES as u32;
    /// The most that a held place's two lengths may say.
    pub const WORDS: u32 = WORDS as u32;
    /// Advertisement word 0.
    pub const ADVERTISEMENT: u32 = BYTES as u32;
    /// Advertisement word 1 is the newest tag plus this, or 0 where none is held.
    pub const TAG_STORED: u32 = 16;

    /// The record of a controller that has seen no message.
    pub const fn fresh() -> TagRecord {
        TagRecord { held: 0, tag: 0, words: [0; PLACES], request: [0; PLACES] }
    }

    /// Check 1 of the record. It asks of all places at once, held or not: the compiler makes vectors
    /// of them.
    pub fn is_allowed(&self) -> bool {
        let fits = |words: u32| words.wrapping_sub(1) < TagRecord::WORDS;
        let mut allowed = true;
        for place in 0..PLACES {
            let back = self.tag.wrapping_sub(place as u32) % TagRecord::HELD;
            let both = fits(self.words[place]) & fits(self.request[place]);
            allowed &= both | (back >= self.held);
        }
        self.held == 0 || (self.held <= TagRecord::HELD && self.tag <= 15 && allowed)
    }

    /// What is to be done with a well-formed message of this header; 11 if it is out of step.
    pub fn verdict(&self, header: Header) -> Result<Verdict, Refusal> {
        let tag = header.tag();
        let next = if self.held == 0 { 0 } else { (self.tag + 1) % 16 };
        if header.discovery() {
            Ok(Verdict::Discovery)
        } else if tag == next {
            Ok(Verdict::New)
        } else if self.tag.wrapping_sub(tag) % 16 < self.held {
            Ok(Verdict::Repeat)
        } else {
            Err(Refusal::OUT_OF_STEP)
        }
    }

    /// The completer's advertisement, as a NOP's answer carries it.
    pub fn advertisement(&self) -> [u32; 2] {
        let stored = if self.held == 0 { 0 } else { self.tag + TagRecord::TAG_STORED };
        [TagRecord::ADVERTISEMENT, stored]
    }

    /// Holds a new message, the oldest of four giving way.
    pub fn hold(&mut self, tag: u32, words: usize, request: usize) {
        let place = place_of(tag);
        self.held = (self.held + 1).min(TagRecord::HELD);
        self.tag = tag;
        self.words[place] = words as u32;
        self.request[place] = request as u32;
    }
}

/// The place of a tag.
pub fn place_of(tag: u32) -> usize {
    tag as usize % PLACES
}

/// What is to be done with a message.
#[derive(PartialEq)]
pub enum Verdict {
    New,
    Repeat,
    Discovery,
}
