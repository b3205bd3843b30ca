//! The training table, loaded through the loader's library.
//!
//! ```
//! # use charkhavo_host::table::{Attempt, SetUp, State};
//! # use charkhavo_host::{Controller, Refusal, Sender};
//! # fn main() -> Result<(), Refusal> {
//! # let (mut controller, mut memory, trained) = (Controller::fresh(), [0; 256], [[7; 7]; 24]);
//! let set_up = SetUp::new(0x40, 193)?;
//! // Over an emptied line, until an answer is accepted.
//! let answer = controller.serve(&mut memory, &Sender::discovery())?;
//! let mut attempt = Attempt::begin(set_up, trained, Sender::discovered(answer)?)?;
//! // What `message` gives goes to the controller, again and again until an answer is taken.
//! while let Some(message) = attempt.message() {
//!     let answer = controller.serve(&mut memory, message)?;
//!     attempt.take(answer)?;
//! }
//! assert_eq!((attempt.state(), memory[16 + 192]), (State::Done, 24));
//! # Ok(())
//! # }
//! ```

use crate::ffi;
use crate::limits::{Rows, BYTES};
use crate::refusal::Refusal;
use crate::sender::Sender;

/// Where a table stands, every time that the loader starts. Make it before anything is sent.
#[derive(Clone, Copy, Debug, PartialEq, Eq)]
pub struct SetUp {
    start: u64,
    room: u64,
}

impl SetUp {
    /// A start in bytes, and how many words there are for the table from there on: 40.
    pub fn new(start: u64, room: u64) -> Result<SetUp, Refusal> {
        match ffi::set_up(start, room) {
            0 => Ok(SetUp { start, room }),
            number => Err(Refusal::of(number)),
        }
    }
}

/// What an attempt has come to.
#[derive(Clone, Copy, Debug, PartialEq, Eq)]
pub enum State {
    /// A message waits for its answer.
    Waits,
    /// Every row came back as sent, and the mark is 24.
    Done,
    /// It failed: the row's number, 25 for the mark.
    Ended(u8),
}

/// An attempt at loading a table, with its rows and with the message that waits. A refused call
/// changes nothing.
///
/// One attempt a life: to try again, whatever it came to, empty the line and ask by discovery.
#[derive(Clone, Debug, PartialEq, Eq)]
pub struct Attempt {
    set_up: SetUp,
    rows: Rows,
    record: ffi::TableAttempt,
    output: [u8; BYTES],
    length: usize,
}

impl Attempt {
    /// Begins with the sender that the answer to this life's discovery made: 37 where a message
    /// waits at it. The first message then waits.
    pub fn begin(set_up: SetUp, rows: Rows, sender: Sender) -> Result<Attempt, Refusal> {
        let record = ffi::attempt(sender.into_record());
        let mut attempt = Attempt { set_up, rows, record, output: [0; BYTES], length: 0 };
        attempt.make()?;
        Ok(attempt)
    }

    pub fn state(&self) -> State {
        match self.record.stage {
            0..=3 => State::Waits,
            4 => State::Done,
            _ => State::Ended(self.record.row),
        }
    }

    /// The message that waits, to be sent any number of times; none once the attempt is done or has
    /// ended.
    pub fn message(&self) -> Option<&[u8]> {
        (self.state() == State::Waits).then_some(&self.output[..self.length])
    }

    /// Takes an answer to the message, and goes on: 30 where none waits, 32 to 35. An answer of no
    /// bytes, none having come in time, is 32. With a refusal the message waits on.
    pub fn take(&mut self, answer: &[u8]) -> Result<State, Refusal> {
        let taken = ffi::table_take(self.record, &self.output[..self.length], answer, &self.rows);
        taken.refusal.result()?;
        self.record = taken.attempt;
        if self.state() == State::Waits {
            self.make()?;
        }
        Ok(self.state())
    }

    /// The next message is made, and waits.
    fn make(&mut self) -> Result<(), Refusal> {
        let Attempt { set_up: SetUp { start, room }, rows, record, output, length } = self;
        let made = ffi::table_message(output, *record, *start, *room, rows);
        if made.refusal != 0 {
            return Err(Refusal::of(made.refusal));
        }
        (*record, *length) = (made.attempt, made.length as usize);
        Ok(())
    }
}
