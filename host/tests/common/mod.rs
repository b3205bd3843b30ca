//! What the tests share: the ends, the slow second reading of the rules, and a bench controller
//! that checks, at each call, what document 01 says of everything lent.

#![allow(dead_code)]

pub mod ends;
pub mod library;
pub mod naive;
pub mod naive_building;
pub mod naive_ends;
pub mod naive_sender;
pub mod naive_table;
pub mod plain;
pub mod seen;

use crate::Ours;
use charkhavo_host::limits::{BYTES, KEPT, PLACES, STORED, WORDS};
use charkhavo_host::plain::TagRecord;
pub use charkhavo_host::random::bytes_of;
use charkhavo_host::Refusal;
pub use ends::{Ends, Given};

/// A refusal at word 0, and one at a later word.
pub fn of(number: u32) -> Refusal {
    Refusal::of(number)
}

pub fn at(number: u32, word: usize) -> Refusal {
    Refusal::of(number).at_word(word)
}

/// The place of a tag.
pub fn place_of(tag: u32) -> usize {
    tag as usize % PLACES
}

/// A record that holds messages back from this tag, the newest first: the words of the stored answer
/// and of the kept request of each. It says 0 of all other places.
pub fn held(tag: u32, lengths: &[(u32, u32)]) -> TagRecord {
    let mut tags = TagRecord { held: lengths.len() as u32, tag, ..TagRecord::fresh() };
    for (back, (words, request)) in lengths.iter().enumerate() {
        let place = place_of(tag.wrapping_sub(back as u32));
        (tags.words[place], tags.request[place]) = (*words, *request);
    }
    tags
}

pub fn words_of(bytes: &[u8]) -> Vec<u32> {
    bytes.as_chunks().0.iter().map(|word| u32::from_le_bytes(*word)).collect()
}

/// A controller of the ends under test, with its buffers.
#[derive(Clone, Debug, PartialEq, Eq)]
pub struct Bench {
    pub memory: Vec<u32>,
    pub stored: Vec<u32>,
    pub kept: Vec<u8>,
    pub output: Vec<u8>,
    pub tags: TagRecord,
}

impl Bench {
    pub fn new(memory: Vec<u32>) -> Bench {
        Bench {
            memory,
            stored: vec![0x5757_5757; STORED + 11],
            kept: vec![0x99; KEPT + 15],
            output: vec![0xEE; BYTES + 5],
            tags: TagRecord::fresh(),
        }
    }

    /// The bench sheet's memory: 8 zero words but word 4.
    pub fn sheet() -> Bench {
        Bench::new(vec![0, 0, 0, 0, 0xF00D_FACE, 0, 0, 0])
    }

    /// The same, with a NOP of this tag held, and no other message.
    pub fn with_tag(tag: u32) -> Bench {
        Bench::sheet().holding(&[0x8000_0000 | tag])
    }

    /// The same, with NOPs held back from this tag, so many.
    pub fn with_tags(tag: u32, many: u32) -> Bench {
        let mut bench = Bench::sheet();
        for back in (0..many).rev() {
            bench = bench.holding(&[0x8000_0000 | (tag.wrapping_sub(back) % 16)]);
        }
        Bench { tags: held(tag, &[(1, 1)].repeat(many as usize)), ..bench }
    }

    /// The same, with these words as the kept request of the tag that they have, and no other.
    pub fn holding(mut self, words: &[u32]) -> Bench {
        let tag = words[0] & 15;
        let kept = &mut self.kept[BYTES * place_of(tag)..];
        kept[..4 * words.len()].copy_from_slice(&bytes_of(words));
        self.tags = held(tag, &[(1, words.len() as u32)]);
        self
    }

    /// Serves a datagram: the words sent, or the refusal.
    pub fn give(&mut self, words: &[u32]) -> Result<Vec<u32>, Refusal> {
        self.give_bytes(&bytes_of(words))
    }

    pub fn give_bytes(&mut self, datagram: &[u8]) -> Result<Vec<u32>, Refusal> {
        let before = self.clone();
        let Bench { memory, stored, kept, output, tags } = self;
        let (refusal, sent) = Ours::serve(memory, stored, kept, output, tags, datagram);
        match refusal.number {
            1 => {}
            2..=10 => assert_eq!(Ours::refusal(datagram), refusal, "the loader says the same"),
            _ => assert_eq!(Ours::refusal(datagram), Refusal::of(0)),
        }
        if refusal.number != 0 {
            assert_eq!(sent, 0);
            assert_eq!(*self, before, "a refusal changes nothing");
            return Err(refusal);
        }
        self.check_left(&before, datagram, sent);
        Ok(words_of(&self.output[..sent]))
    }

    /// What lies past the answer keeps what it held. A repeat and a discovery leave record, stored
    /// answers and kept requests; a new message has its own place of them, and leaves the others.
    fn check_left(&self, before: &Bench, datagram: &[u8], sent: usize) {
        assert!(sent.is_multiple_of(4) && (4..=BYTES).contains(&sent));
        assert_eq!(self.output[sent..], before.output[sent..]);
        let Bench { mut stored, mut kept, mut tags, .. } = before.clone();
        if self.tags != tags {
            let (tag, answer) = (u32::from(datagram[0] & 15), words_of(&self.output[..sent]));
            let place = place_of(tag);
            stored[WORDS * place..][..answer.len()].copy_from_slice(&answer);
            kept[BYTES * place..][..datagram.len()].copy_from_slice(datagram);
            (tags.held, tags.tag) = ((tags.held + 1).min(4), tag);
            tags.words[place] = answer.len() as u32;
            tags.request[place] = datagram.len() as u32 / 4;
        }
        assert_eq!(self.tags, tags);
        assert!(self.stored == stored && self.kept == kept);
    }
}
