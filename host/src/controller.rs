//! The controller's end, through its library.

use crate::ffi::{self, TagRecord};
use crate::limits::{BYTES, KEPT, STORED};
use crate::refusal::Refusal;

/// A controller: its stored answers, its kept requests, its output and its tag record. Memory is
/// lent to it at each call, and may be changed by others in between.
#[derive(Clone, Debug, PartialEq, Eq)]
pub struct Controller {
    stored: [u32; STORED],
    kept: [u8; KEPT],
    output: [u8; BYTES],
    tags: TagRecord,
}

impl Controller {
    /// A controller that holds no message, and takes only tag 0 as new.
    pub fn fresh() -> Controller {
        let tags = TagRecord::FRESH;
        Controller { stored: [0; STORED], kept: [0; KEPT], output: [0; BYTES], tags }
    }

    /// Comes up fresh, as after a reset: it holds no message any more. Its loader starts anew too,
    /// and nothing that was sent before may arrive.
    pub fn reset(&mut self) {
        self.tags = TagRecord::FRESH;
    }

    /// The tag of the newest message; none while fresh.
    pub fn tag(&self) -> Option<u32> {
        (self.tags.held != 0).then_some(self.tags.tag)
    }

    /// Serves one datagram upon a memory of 1 to 16,384 words; gives the bytes to send back.
    /// Refusals: 1 where memory is of another length, 2 to 12; with one, nothing has changed.
    pub fn serve(&mut self, memory: &mut [u32], datagram: &[u8]) -> Result<&[u8], Refusal> {
        let Controller { stored, kept, output, tags } = self;
        let sent = ffi::serve(memory, stored, kept, output, tags, datagram);
        sent.refusal.result()?;
        Ok(&output[..sent.sent])
    }
}

impl Default for Controller {
    fn default() -> Controller {
        Controller::fresh()
    }
}
