//! The refusals: the documents' numbers, and their words for each.

use crate::limits::{BYTES, WORDS};
use std::fmt;

/// A refusal by its number in document 01, and the index of the header word that was looked at:
/// of the datagram for 3 to 9, of the request for 31, of the answer for 33 to 35; 0 for all others.
#[derive(Clone, Copy, Debug, PartialEq, Eq)]
pub struct Refusal {
    pub number: u32,
    pub at: u32,
}

impl Refusal {
    /// A refusal that has no header word, or the first.
    pub const fn of(number: u32) -> Refusal {
        Refusal { number, at: 0 }
    }

    /// The same refusal at this word.
    pub const fn at_word(self, word: usize) -> Refusal {
        Refusal { at: word as u32, ..self }
    }

    // Turned away by the controller.
    pub const LENT: Refusal = Refusal::of(1);
    pub const LENGTH: Refusal = Refusal::of(2);
    pub const PAST_END: Refusal = Refusal::of(3);
    pub const BYTE_0: Refusal = Refusal::of(4);
    pub const KIND: Refusal = Refusal::of(5);
    pub const RESERVED: Refusal = Refusal::of(6);
    pub const COUNT: Refusal = Refusal::of(7);
    pub const ENABLES: Refusal = Refusal::of(8);
    pub const AFTER_LAST: Refusal = Refusal::of(9);
    pub const LONG_ANSWER: Refusal = Refusal::of(10);
    pub const OUT_OF_STEP: Refusal = Refusal::of(11);
    pub const OTHER_BYTES: Refusal = Refusal::of(12);

    // Building a message.
    pub const BUILDING: Refusal = Refusal::of(21);
    pub const CLOSING: Refusal = Refusal::of(22);
    pub const ADDED_COUNT: Refusal = Refusal::of(23);
    pub const ADDED_ENABLES: Refusal = Refusal::of(24);
    pub const ADDED_ADDRESS: Refusal = Refusal::of(25);
    pub const NO_ROOM: Refusal = Refusal::of(26);

    // The sender.
    pub const NONE_WAITS: Refusal = Refusal::of(30);
    pub const REQUEST: Refusal = Refusal::of(31);
    pub const ANSWER_LENGTH: Refusal = Refusal::of(32);
    pub const ANSWER_BYTE_0: Refusal = Refusal::of(33);
    pub const ANSWER_HEADER: Refusal = Refusal::of(34);
    pub const ANSWER_END: Refusal = Refusal::of(35);
    pub const OFFERING: Refusal = Refusal::of(36);
    pub const SENDER: Refusal = Refusal::of(37);
    pub const DISCOVERY: Refusal = Refusal::of(38);

    // The training table.
    pub const SET_UP: Refusal = Refusal::of(40);
}

/// Document 01's sentence for each number, 1, 11, 12, 31, 36 and 37 by requests [7] and [9], 40 and
/// what 30 and 36 say of the training table by [13]; `{words}` and `{bytes}` stand for the limit.
pub const TABLE: [(u32, &str); 28] = [
    (1, "memory, stored answers, kept requests or output has a forbidden length, or the record is not fresh and \
         not (one to four held, newest tag 0 to 15, both lengths of each held 1 to {words})"),
    (2, "0 bytes, not a multiple of 4, or over {bytes}"),
    (3, "a header or body runs past the end"),
    (4, "byte 0 differs from the first header's"),
    (5, "kind 3"),
    (6, "reserved bits set"),
    (7, "count not allowed"),
    (8, "byte enables not allowed"),
    (9, "words follow the LAST command"),
    (10, "the answer with all commands OK would pass {words} words"),
    (11, "out of step (discovery clear): the tag is neither held nor the next, which is 0 for a fresh record"),
    (12, "a repeat whose bytes differ from the kept request of its tag"),
    (21, "short output, kind over 2, tag over 15 or a building record that no sequence of calls gives"),
    (22, "adding after closing, closing twice or closing with nothing added"),
    (23, "count"),
    (24, "enables"),
    (25, "address of 2^32 or more in 32-bit mode"),
    (26, "request or all-OK answer would pass {words} words"),
    (30, "sending or taking an answer while none waits; a training table that is done or has ended has no \
         message"),
    (31, "request would be refused 2 to 10, has the discovery bit, or its tag is not (offering) the one \
         after the newest, or (sending, taking) that of a waiting message not yet answered"),
    (32, "answer length 0, not a multiple of 4, or over {bytes}"),
    (33, "byte 0 is not the request's with kind 3"),
    (34, "later byte 0 differs, reserved or bits 15:12 set, status 3 or more, or count wrong (nonzero \
         status: count 0)"),
    (35, "a header or body past the end, LAST missing or early, or words after it"),
    (36, "offering while four wait; of the training table, while one does"),
    (37, "sender record's next tag over 15, or more than four waiting"),
    (38, "discovery status not OK, or word 1 has bits above 4 set, or bit 4 clear and a tag nonzero"),
    (40, "a set-up with room for fewer than 193 words, a start not a multiple of 4 or an end past 2^32"),
];

/// The sentence for a number, with the limit in figures; none for a number that is no refusal.
pub fn sentence(number: u32) -> Option<String> {
    let (_, words) = TABLE.iter().find(|(given, _)| *given == number)?;
    Some(limited(words, &figures(WORDS), &figures(BYTES)))
}

/// A sentence of the table with the limit named in words and in bytes.
pub fn limited(sentence: &str, words: &str, bytes: &str) -> String {
    sentence.replace("{words}", words).replace("{bytes}", bytes)
}

/// A number as document 01 writes it: thousands set apart by a comma.
fn figures(number: usize) -> String {
    match number {
        0..=999 => number.to_string(),
        _ => format!("{},{:03}", figures(number / 1000), number % 1000),
    }
}

impl fmt::Display for Refusal {
    fn fmt(&self, f: &mut fmt::Formatter) -> fmt::Result {
        let Refusal { number, at } = *self;
        let words = sentence(number).unwrap_or_else(|| "no refusal of document 01".into());
        write!(f, "refused {number} at {at}: {words}")
    }
}

impl std::error::Error for Refusal {}
