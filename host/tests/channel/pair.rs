//! Two ends as a program holds them: a controller, a sender, and messages built for it; and an attempt
//! at the training table, above the sender.

use charkhavo_host::limits::Rows;
use charkhavo_host::plain::Addition;

/// The status and the read data of each answered command.
pub type Told = Vec<(u32, Vec<u8>)>;

pub trait TwoEnds {
    fn fresh() -> Self;

    /// The controller's newest tag.
    fn tag(&self) -> Option<u32>;
    fn serve(&mut self, memory: &mut [u32], datagram: &[u8]) -> Result<Vec<u8>, u32>;

    fn discovery() -> [u8; 12];
    /// The loader takes an answer for that to its discovery: a new sender. Refused, all stays.
    fn hear(&mut self, answer: &[u8]) -> Result<(), u32>;
    /// The controller comes up fresh. Its buffers were cleared or not.
    fn reset(&mut self);
    /// The tag of the message to offer.
    fn new_tag(&self) -> u32;
    /// How many wait.
    fn waiting(&self) -> usize;
    /// The tags of those that wait and are not answered, the oldest first.
    fn unanswered(&self) -> Vec<u32>;
    /// A message of the new tag; commands that have no room are left out.
    fn build(&self, kind: u32, wide: bool, commands: &[Addition]) -> Vec<u8>;
    fn offer(&mut self, message: &[u8]) -> Result<(), u32>;
    fn send(&self, tag: u32) -> Result<Vec<u8>, u32>;
    /// Takes an answer; it is held against the unanswered message whose tag it has, else against the
    /// oldest. Gives what is told of each message that ended, in order of tag.
    fn take(&mut self, answer: &[u8]) -> Result<Vec<Told>, u32>;
}

pub trait Loads: TwoEnds {
    type Attempt;

    /// An attempt begins with the sender, and its first message waits.
    fn begin(&self, start: u64, rows: &Rows) -> Self::Attempt;
    /// The message that waits, while the attempt goes on.
    fn message(attempt: &Self::Attempt) -> Option<&[u8]>;
    /// Takes an answer to it; the next message then waits, if there is one.
    fn take_on(attempt: &mut Self::Attempt, answer: &[u8]) -> Result<(), u32>;
    /// The row that an attempt ended with, 0 where it is done; none while it goes on.
    fn came_to(attempt: &Self::Attempt) -> Option<u8>;
}

/// Adding is refused only where there is no room.
pub fn check_added(number: u32) {
    assert!(number == 0 || number == 26, "adding is refused {number}");
}
