//! The declarations of `include/charkhavo.h`, in its order: the records as C lays them out, and
//! the libraries' functions. What each means stands there.

use crate::limits::{Rows, PLACES};

// Lengths are 64 bits wide in the libraries, on every processor; here they are `usize`.
const _: () = assert!(usize::BITS == 64);

/// A refusal as C has it; number 0 where nothing is refused.
#[repr(C)]
#[derive(Clone, Copy, Debug, PartialEq, Eq)]
pub struct Refused {
    pub number: u32,
    pub at: u32,
}

#[repr(C)]
#[derive(Clone, Copy, Debug, PartialEq, Eq)]
pub struct TagRecord {
    pub held: u32,
    pub tag: u32,
    pub words: [u32; PLACES],
    pub request: [u32; PLACES],
}

#[repr(C)]
#[derive(Clone, Copy, Debug, PartialEq, Eq)]
pub struct Sent {
    pub refusal: Refused,
    pub sent: usize,
}

#[repr(C)]
#[derive(Clone, Copy, Debug, PartialEq, Eq)]
pub struct Building {
    pub kind: u32,
    pub tag: u32,
    pub wide: bool,
    pub discovery: bool,
    pub words: usize,
    pub last: usize,
    pub answer: usize,
    pub closed: bool,
}

#[repr(C)]
#[derive(Clone, Copy, Debug, PartialEq, Eq)]
pub struct Discovery {
    pub bytes: [u8; 12],
}

#[repr(C)]
#[derive(Clone, Copy, Debug, PartialEq, Eq)]
pub struct Sender {
    pub next: u8,
    pub waiting: u8,
    pub second: bool,
    pub third: bool,
    pub fourth: bool,
}

#[repr(C)]
#[derive(Clone, Copy, Debug, PartialEq, Eq)]
pub struct Moved {
    pub refusal: Refused,
    pub sender: Sender,
}

#[repr(C)]
#[derive(Clone, Copy, Debug, PartialEq, Eq)]
pub struct Taken {
    pub refusal: Refused,
    pub sender: Sender,
    pub ended: u8,
}

#[repr(C)]
#[derive(Clone, Copy, Debug, PartialEq, Eq)]
pub struct Sending {
    pub refusal: Refused,
    pub length: usize,
}

#[repr(C)]
#[derive(Clone, Copy, Debug, PartialEq, Eq)]
pub struct Part {
    pub start: usize,
    pub length: usize,
}

#[repr(C)]
#[derive(Clone, Copy, Debug, PartialEq, Eq)]
pub struct TableAttempt {
    pub sender: Sender,
    pub stage: u8,
    pub row: u8,
}

#[repr(C)]
#[derive(Clone, Copy, Debug, PartialEq, Eq)]
pub struct TableMade {
    pub refusal: u32,
    pub length: u32,
    pub attempt: TableAttempt,
}

#[repr(C)]
#[derive(Clone, Copy, Debug, PartialEq, Eq)]
pub struct TableTaken {
    pub refusal: Refused,
    pub attempt: TableAttempt,
}

// A slice is passed as its pointer and its length; the rows of a table, whose length is fixed, as
// their pointer.

extern "C" {
    // libcontroller.a
    pub(super) fn charkhavo_serve(
        memory: *mut u32,
        memory_length: usize,
        kept: *mut u8,
        kept_length: usize,
        stored: *mut u32,
        stored_length: usize,
        output: *mut u8,
        output_length: usize,
        tags: *mut TagRecord,
        datagram: *const u8,
        datagram_length: usize,
    ) -> Sent;

    // libloader.a
    pub(super) fn charkhavo_refusal(request: *const u8, request_length: usize) -> Refused;
    pub(super) fn charkhavo_begin(
        output: *const u8,
        output_length: usize,
        building: *mut Building,
        kind: u32,
        tag: u32,
        wide: bool,
        discovery: bool,
    ) -> Refused;
    pub(super) fn charkhavo_add(
        output: *mut u8,
        output_length: usize,
        building: *mut Building,
        address: u64,
        first: u32,
        last: u32,
        count: usize,
        payload: *const u32,
        payload_length: usize,
    ) -> Refused;
    pub(super) fn charkhavo_close(
        output: *mut u8,
        output_length: usize,
        building: *mut Building,
    ) -> Refused;
    pub(super) fn charkhavo_discovery() -> Discovery;
    pub(super) fn charkhavo_fresh() -> Sender;
    pub(super) fn charkhavo_discovered(answer: *const u8, answer_length: usize) -> Moved;
    pub(super) fn charkhavo_offer(
        sender: Sender,
        message: *const u8,
        message_length: usize,
    ) -> Moved;
    pub(super) fn charkhavo_send(
        sender: Sender,
        message: *const u8,
        message_length: usize,
    ) -> Sending;
    pub(super) fn charkhavo_take(
        sender: Sender,
        message: *const u8,
        message_length: usize,
        answer: *const u8,
        answer_length: usize,
    ) -> Taken;
    pub(super) fn charkhavo_count(
        request: *const u8,
        request_length: usize,
        answer: *const u8,
        answer_length: usize,
    ) -> usize;
    pub(super) fn charkhavo_status(
        request: *const u8,
        request_length: usize,
        answer: *const u8,
        answer_length: usize,
        k: usize,
    ) -> u32;
    pub(super) fn charkhavo_read_data(
        request: *const u8,
        request_length: usize,
        answer: *const u8,
        answer_length: usize,
        k: usize,
    ) -> Part;
    pub(super) fn charkhavo_set_up(start: u64, room: u64) -> u32;
    pub(super) fn charkhavo_attempt(sender: Sender) -> TableAttempt;
    pub(super) fn charkhavo_table_message(
        output: *mut u8,
        output_length: usize,
        attempt: TableAttempt,
        start: u64,
        room: u64,
        rows: *const Rows,
    ) -> TableMade;
    pub(super) fn charkhavo_table_take(
        attempt: TableAttempt,
        message: *const u8,
        message_length: usize,
        answer: *const u8,
        answer_length: usize,
        rows: *const Rows,
    ) -> TableTaken;
}
