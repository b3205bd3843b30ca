//! The training table of request [13], above the sender: 24 rows, each numbered in its first word,
//! then the mark. Four messages load it, one at a time. Refusal 40, and those of the sender and of
//! building; with one, nothing has changed.

use super::answer::{judge, Answered};
use super::message::{Header, Kind};
use super::sender::{sendable, Sender};
use crate::limits::{Rows, BYTES, ROW, ROWS, TABLE};
use crate::refusal::Refusal;

/// The record of an attempt. Its fields can be set by anybody; each call judges them.
#[derive(Clone, Copy, Debug, PartialEq, Eq)]
pub struct Attempt {
    pub sender: Sender,
    /// `CLEAR` to `SET` the message that comes next, or `DONE`; any other number says that it has
    /// ended.
    pub stage: u8,
    /// The row that it has ended with; of an attempt that has not it says nothing.
    pub row: u8,
}

/// The stages: 0 goes to the mark, the rows are written, they are read back, 24 goes to the mark.
pub const CLEAR: u8 = 0;
pub const WRITE: u8 = 1;
pub const READ: u8 = 2;
pub const SET: u8 = 3;
pub const DONE: u8 = 4;
pub const ENDED: u8 = 5;

/// What the mark of a complete table holds.
pub const COMPLETE: u32 = 24;
/// The number that an attempt ends with where the mark failed.
pub const MARK: u8 = 25;

/// A set-up: where the table starts, in bytes, and how many words there are for it. 40.
pub fn set_up(start: u64, room: u64) -> Result<(), Refusal> {
    let end = u128::from(start) + 4 * u128::from(room);
    if room < TABLE as u64 || !start.is_multiple_of(4) || end > 1 << 32 {
        Err(Refusal::SET_UP)
    } else {
        Ok(())
    }
}

impl Attempt {
    /// An attempt first clears the mark. With a sender at which something waits it is stopped: 37.
    pub const fn new(sender: Sender) -> Attempt {
        let sender = if sender.waiting == 0 { sender } else { Sender::idle(16) };
        Attempt { sender, stage: CLEAR, row: 0 }
    }

    /// Writes the next message into the output and offers it; gives its length. 40, 37, 36, 30, 21.
    pub fn message(
        &mut self,
        output: &mut [u8],
        start: u64,
        room: u64,
        rows: &Rows,
    ) -> Result<usize, Refusal> {
        set_up(start, room)?;
        self.sender.check_record()?;
        if self.sender.waiting > 0 {
            return Err(Refusal::OFFERING);
        }
        if self.stage >= DONE {
            return Err(Refusal::NONE_WAITS);
        }
        if output.len() < BYTES {
            return Err(Refusal::BUILDING);
        }
        let message = Message { output, length: 0 };
        let message = message.of_stage(self.stage, self.sender.next.into(), start as usize, rows);
        self.sender.offer(message)?;
        self.row = 0;
        Ok(message.len())
    }

    /// Takes an answer to the message that waits: 37, 30, 31, 32 to 35.
    pub fn take(&mut self, message: &[u8], answer: &[u8], rows: &Rows) -> Result<(), Refusal> {
        self.sender.take(message, answer)?;
        let well = well(message, answer, self.stage, rows)?;
        (self.stage, self.row) = match self.stage {
            CLEAR | SET if well < 1 => (ENDED, MARK),
            WRITE | READ if well < ROWS => (ENDED, well as u8 + 1),
            CLEAR..=SET => (self.stage + 1, 0),
            DONE => (DONE, 0),
            _ => (ENDED, self.row),
        };
        Ok(())
    }
}

/// A row, counted from 0, with its number.
fn numbered(rows: &Rows, at: usize) -> [u32; ROW] {
    let mut row = [at as u32 + 1; ROW];
    row[1..].copy_from_slice(&rows[at]);
    row
}

/// How many commands went well, up to the first that did not: it was OK, and where rows are read
/// back, its row came as it was sent.
fn well(message: &[u8], answer: &[u8], stage: u8, rows: &Rows) -> Result<usize, Refusal> {
    let (mut well, mut at) = (0, 0);
    judge(&sendable(message)?, answer, |Answered { kind, status, data }| {
        let same = || kind == Kind::Read && at < ROWS && is(&answer[data], numbered(rows, at));
        if at == well && status == 0 && (stage != READ || same()) {
            well += 1;
        }
        at += 1;
    })?;
    Ok(well)
}

/// Whether these bytes are the words of a row.
fn is(bytes: &[u8], row: [u32; ROW]) -> bool {
    let (words, rest) = bytes.as_chunks();
    rest.is_empty() && words.iter().map(|word| u32::from_le_bytes(*word)).eq(row)
}

/// A message that grows at the front of an output.
struct Message<'a> {
    output: &'a mut [u8],
    length: usize,
}

impl<'a> Message<'a> {
    fn put(&mut self, words: &[u32]) {
        for word in words {
            self.output[self.length..][..4].copy_from_slice(&word.to_le_bytes());
            self.length += 4;
        }
    }

    fn command(&mut self, header: Header, last: bool, address: usize, data: &[u32]) {
        let last = if last { Header::LAST } else { 0 };
        self.put(&[header.0 | last, address as u32]);
        self.put(data);
    }

    fn of_stage(mut self, stage: u8, tag: u32, start: usize, rows: &Rows) -> &'a [u8] {
        let [write, read] = [1, 2].map(|kind| Header::byte0_of(kind, tag, false, false));
        let mark = Header::new(write, 0x0F, 1);
        match stage {
            CLEAR => self.command(mark, true, start + 4 * ROW * ROWS, &[0]),
            SET => self.command(mark, true, start + 4 * ROW * ROWS, &[COMPLETE]),
            _ => {
                for at in 0..ROWS {
                    let (last, address) = (at + 1 == ROWS, start + 4 * ROW * at);
                    let row = numbered(rows, at);
                    match stage {
                        WRITE => self.command(Header::new(write, 0xFF, ROW), last, address, &row),
                        _ => self.command(Header::new(read, 0, ROW), last, address, &[]),
                    }
                }
            }
        }
        &self.output[..self.length]
    }
}
