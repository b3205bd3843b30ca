//! The two static libraries: one safe function for each of theirs, over slices and records of
//! any lengths and contents. All `unsafe` of the package is in this module.
//!
//! Why the calls are sound. A library reads and writes what it was lent, within the lengths
//! given, for any values of it, and keeps no pointer; each function here hands it the pointer
//! and the length of one slice side by side, so the pointers are valid and aligned for those
//! lengths. What a library may change comes as `&mut`, so nothing else refers to it during the
//! call. Every value of a byte, a word or a number is a value of its Rust type, and a `bool`
//! that a library gives back is 0 or 1, being one of its own or the caller's. The records
//! are laid out as the libraries lay them out (`repr(C)` on both sides), and the rows of a table one
//! behind another, as an array of all their words is.

#![allow(unsafe_code)]

#[cfg(feature = "before")]
pub mod before;
mod c;

pub use c::TagRecord;
pub use c::{Building, Discovery, Moved, Part, Refused, Sender, Sending, Sent, Taken};
pub use c::{TableAttempt, TableMade, TableTaken};

use crate::limits::{Rows, PLACES};
use crate::refusal::Refusal;

impl Refused {
    /// Number 0 is no refusal.
    pub fn result(self) -> Result<(), Refusal> {
        match self {
            Refused { number: 0, .. } => Ok(()),
            Refused { number, at } => Err(Refusal { number, at }),
        }
    }
}

impl Building {
    /// The record to start with, before the first begin: adding and closing with it are 21.
    pub const NONE: Building = Building {
        kind: 3,
        tag: 0,
        wide: false,
        discovery: false,
        words: 0,
        last: 0,
        answer: 0,
        closed: false,
    };
}

impl TagRecord {
    /// The record of a controller that starts: none is held.
    pub const FRESH: TagRecord =
        TagRecord { held: 0, tag: 0, words: [0; PLACES], request: [0; PLACES] };
}

/// Serves one datagram: 1 to 12.
#[inline(always)]
pub fn serve(
    memory: &mut [u32],
    stored: &mut [u32],
    kept: &mut [u8],
    output: &mut [u8],
    tags: &mut TagRecord,
    datagram: &[u8],
) -> Sent {
    // Sound: five lent exclusively, one shared, each with its own length.
    unsafe {
        c::charkhavo_serve(
            memory.as_mut_ptr(),
            memory.len(),
            kept.as_mut_ptr(),
            kept.len(),
            stored.as_mut_ptr(),
            stored.len(),
            output.as_mut_ptr(),
            output.len(),
            tags,
            datagram.as_ptr(),
            datagram.len(),
        )
    }
}

/// The refusal of a request by any controller, 2 to 10; number 0 where it is well-formed.
pub fn refusal(request: &[u8]) -> Refused {
    // Sound: the request is only read.
    unsafe { c::charkhavo_refusal(request.as_ptr(), request.len()) }
}

/// The fields of a command to add, which C has as parameters.
#[derive(Clone, Copy, Debug, PartialEq, Eq)]
pub struct Asked {
    pub address: u64,
    pub first: u32,
    pub last: u32,
    pub count: usize,
}

/// Begins a message: 21. Refused, the record is as it was.
pub fn begin(
    output: &[u8],
    building: &mut Building,
    kind: u32,
    tag: u32,
    wide: bool,
    discovery: bool,
) -> Refused {
    let (bytes, length) = (output.as_ptr(), output.len());
    // Sound: the output is only read, if at all; the record is lent exclusively.
    unsafe { c::charkhavo_begin(bytes, length, building, kind, tag, wide, discovery) }
}

/// Adds a command, with the data of a write or NOP: 21 to 26. Refused, the record is as it was.
pub fn add(output: &mut [u8], building: &mut Building, asked: Asked, payload: &[u32]) -> Refused {
    let Asked { address, first, last, count } = asked;
    // Sound: output and record are lent exclusively, the payload only read.
    unsafe {
        c::charkhavo_add(
            output.as_mut_ptr(),
            output.len(),
            building,
            address,
            first,
            last,
            count,
            payload.as_ptr(),
            payload.len(),
        )
    }
}

/// Closes the message: 21, 22. Refused, the record is as it was.
pub fn close(output: &mut [u8], building: &mut Building) -> Refused {
    // Sound: output and record are lent exclusively.
    unsafe { c::charkhavo_close(output.as_mut_ptr(), output.len(), building) }
}

/// The fixed discovery's bytes.
pub fn discovery() -> [u8; 12] {
    // Sound: nothing is lent.
    unsafe { c::charkhavo_discovery() }.bytes
}

/// The sender of a fresh pair.
pub fn fresh() -> Sender {
    // Sound: nothing is lent.
    unsafe { c::charkhavo_fresh() }
}

/// The sender that an answer to the fixed discovery makes: 32 to 35, 38.
pub fn discovered(answer: &[u8]) -> Moved {
    // Sound: the answer is only read.
    unsafe { c::charkhavo_discovered(answer.as_ptr(), answer.len()) }
}

/// Offers a message, which then waits: 37, 36, 31.
pub fn offer(sender: Sender, message: &[u8]) -> Moved {
    // Sound: the message is only read; the record goes by value.
    unsafe { c::charkhavo_offer(sender, message.as_ptr(), message.len()) }
}

/// Whether a waiting message may go out, and its length: 37, 30, 31.
pub fn send(sender: Sender, message: &[u8]) -> Sending {
    // Sound: the message is only read; the record goes by value.
    unsafe { c::charkhavo_send(sender, message.as_ptr(), message.len()) }
}

/// Takes an answer to a waiting message: 37, 30, 31, 32 to 35.
pub fn take(sender: Sender, message: &[u8], answer: &[u8]) -> Taken {
    let (back, length) = (answer.as_ptr(), answer.len());
    // Sound: message and answer are only read; the record goes by value.
    unsafe { c::charkhavo_take(sender, message.as_ptr(), message.len(), back, length) }
}

/// How many commands an answer answers; 0 where it is refused.
pub fn count(request: &[u8], answer: &[u8]) -> usize {
    let (back, length) = (answer.as_ptr(), answer.len());
    // Sound: both are only read.
    unsafe { c::charkhavo_count(request.as_ptr(), request.len(), back, length) }
}

/// How command `k` ended: 0 OK, 1 Timeout, 2 Error, 3 not answered.
pub fn status(request: &[u8], answer: &[u8], k: usize) -> u32 {
    let (back, length) = (answer.as_ptr(), answer.len());
    // Sound: both are only read; `k` may be any number.
    unsafe { c::charkhavo_status(request.as_ptr(), request.len(), back, length, k) }
}

/// Where in the answer the read data of command `k` stand.
pub fn read_data(request: &[u8], answer: &[u8], k: usize) -> Part {
    let (back, length) = (answer.as_ptr(), answer.len());
    // Sound: both are only read; `k` may be any number.
    unsafe { c::charkhavo_read_data(request.as_ptr(), request.len(), back, length, k) }
}

/// The refusal of a table's set-up, 40; 0 for none.
pub fn set_up(start: u64, room: u64) -> u32 {
    // Sound: nothing is lent.
    unsafe { c::charkhavo_set_up(start, room) }
}

/// The attempt that begins with a sender.
pub fn attempt(sender: Sender) -> TableAttempt {
    // Sound: the record goes by value.
    unsafe { c::charkhavo_attempt(sender) }
}

/// The next message of an attempt, in the output, and offered: 40, 37, 36, 30, 21.
pub fn table_message(
    output: &mut [u8],
    attempt: TableAttempt,
    start: u64,
    room: u64,
    rows: &Rows,
) -> TableMade {
    let (bytes, length) = (output.as_mut_ptr(), output.len());
    // Sound: the output is lent exclusively, the rows only read; the record goes by value.
    unsafe { c::charkhavo_table_message(bytes, length, attempt, start, room, rows) }
}

/// Takes an answer to an attempt's message: 37, 30, 31, 32 to 35.
pub fn table_take(attempt: TableAttempt, message: &[u8], answer: &[u8], rows: &Rows) -> TableTaken {
    let (sent, length) = (message.as_ptr(), message.len());
    let (back, back_length) = (answer.as_ptr(), answer.len());
    // Sound: message, answer and rows are only read; the record goes by value.
    unsafe { c::charkhavo_table_take(attempt, sent, length, back, back_length, rows) }
}
