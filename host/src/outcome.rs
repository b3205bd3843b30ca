//! The outcome of a message, through the loader's library.

use crate::ffi;

/// How a command ended.
#[derive(Clone, Copy, Debug, PartialEq, Eq)]
pub enum Status {
    Ok,
    Timeout,
    Error,
}

/// What an answer tells of its request: the status and read data of each answered command. Of
/// an answer that 31 (its tag clause aside) to 35 refuse it tells nothing.
#[derive(Clone, Copy, Debug, PartialEq, Eq)]
pub struct Outcome<'a> {
    request: &'a [u8],
    answer: &'a [u8],
}

impl<'a> Outcome<'a> {
    /// Of any request and answer; no sender is asked.
    pub fn new(request: &'a [u8], answer: &'a [u8]) -> Outcome<'a> {
        Outcome { request, answer }
    }

    /// The message.
    pub fn request(&self) -> &'a [u8] {
        self.request
    }

    /// Its answer.
    pub fn answer(&self) -> &'a [u8] {
        self.answer
    }

    /// How many commands were answered.
    pub fn count(&self) -> usize {
        ffi::count(self.request, self.answer)
    }

    /// How command `k`, counted from 0, ended; none if it was not answered.
    pub fn status(&self, k: usize) -> Option<Status> {
        match ffi::status(self.request, self.answer, k) {
            0 => Some(Status::Ok),
            1 => Some(Status::Timeout),
            2 => Some(Status::Error),
            _ => None,
        }
    }

    /// The bytes of the answer that hold the read data of command `k`; none of them if that
    /// command was not answered or is no OK read.
    pub fn read_data(&self, k: usize) -> &'a [u8] {
        let part = ffi::read_data(self.request, self.answer, k);
        &self.answer[part.start..part.start + part.length]
    }
}
