//! The loader's sender: up to four messages wait, each lent by the caller at the calls about it.
//! Refusals 30 to 38; with one, the sender has not changed.

use super::answer::judge;
use super::message::{walk, Walked};
use crate::limits::{BYTES, PLACES};
use crate::refusal::Refusal;

/// The sender's record. Its fields can be set by anybody; each call judges them first.
#[derive(Clone, Copy, Debug, PartialEq, Eq)]
pub struct Sender {
    /// The tag of the oldest message that waits, or of the one to offer where none does.
    pub next: u8,
    /// How many messages wait, their tags one after another.
    pub waiting: u8,
    /// Which of the three behind the oldest are answered; of those that do not wait it says nothing.
    pub answered: [bool; PLACES - 1],
}

/// The fixed discovery, a NOP of two words whose answer tells a sender where to begin.
pub const DISCOVERY: [u8; 12] = {
    let advertisement = (BYTES as u32).to_le_bytes();
    let [a, b, c, d] = advertisement;
    [0x80, 0x00, 0x02, 0x80, a, b, c, d, 0, 0, 0, 0]
};

impl Sender {
    /// What a refused discovery answer leaves the caller with: 37 stops any use of it.
    pub const UNUSABLE: Sender = Sender::idle(16);

    /// A sender at which none waits.
    pub const fn idle(next: u8) -> Sender {
        Sender { next, waiting: 0, answered: [false; PLACES - 1] }
    }

    /// The sender for a fresh pair.
    pub const fn fresh() -> Sender {
        Sender::idle(0)
    }

    /// The sender that an answer to the fixed discovery tells of: 32 to 35, then 38.
    pub fn from_discovery(answer: &[u8]) -> Result<Sender, Refusal> {
        let mut status = 0;
        judge(&walk(&DISCOVERY)?, answer, |answered| status = answered.status)?;
        if status != 0 {
            return Err(Refusal::DISCOVERY);
        }
        let (_, last) = answer.split_last_chunk().ok_or(Refusal::ANSWER_LENGTH)?;
        match u32::from_le_bytes(*last) {
            0 => Ok(Sender::fresh()),
            newest @ 16..=31 => Ok(Sender::idle((newest as u8 + 1) % 16)),
            _ => Err(Refusal::DISCOVERY),
        }
    }

    /// Offers a message, which then waits: 37, 36, 31.
    pub fn offer(&mut self, request: &[u8]) -> Result<(), Refusal> {
        self.check_record()?;
        if usize::from(self.waiting) == PLACES {
            return Err(Refusal::OFFERING);
        }
        let request = sendable(request)?;
        if self.place_of(&request) != self.waiting.into() {
            return Err(Refusal::REQUEST);
        }
        self.clear();
        self.waiting += 1;
        Ok(())
    }

    /// Hands back a waiting message's own bytes, any number of times: 37, 30, 31.
    pub fn send<'a>(&self, request: &'a [u8]) -> Result<&'a [u8], Refusal> {
        self.check_waiting(request)?;
        Ok(request)
    }

    /// Takes an answer to a waiting message: 37, 30, 31, then 32 to 35. Gives how many messages end:
    /// an answer to the oldest ends it and the answered ones right behind it.
    pub fn take(&mut self, request: &[u8], answer: &[u8]) -> Result<u8, Refusal> {
        let request = self.check_waiting(request)?;
        judge(&request, answer, |_| ())?;
        self.clear();
        match self.place_of(&request) {
            0 => Ok(self.end_oldest()),
            place => {
                self.answered[place - 1] = true;
                Ok(0)
            }
        }
    }

    fn end_oldest(&mut self) -> u8 {
        let ended = 1 + self.answered.iter().take_while(|answered| **answered).count();
        let mut answered = [false; PLACES - 1];
        for (to, from) in answered.iter_mut().zip(self.answered.iter().skip(ended)) {
            *to = *from;
        }
        let ended = ended as u8;
        *self = Sender { next: (self.next + ended) % 16, waiting: self.waiting - ended, answered };
        ended
    }

    /// Forgets what the record says of messages that do not wait.
    fn clear(&mut self) {
        self.answered[usize::from(self.waiting.max(1)) - 1..].fill(false);
    }

    pub(super) fn check_record(&self) -> Result<(), Refusal> {
        if self.next > 15 || usize::from(self.waiting) > PLACES {
            Err(Refusal::SENDER)
        } else {
            Ok(())
        }
    }

    fn check_waiting<'a>(&self, request: &'a [u8]) -> Result<Walked<'a>, Refusal> {
        self.check_record()?;
        if self.waiting == 0 {
            return Err(Refusal::NONE_WAITS);
        }
        let request = sendable(request)?;
        let place = self.place_of(&request);
        let waits = place < self.waiting.into();
        if !waits || (place > 0 && self.answered[place - 1]) {
            return Err(Refusal::REQUEST);
        }
        Ok(request)
    }

    /// How far a message's tag is behind the next one, modulo 16: its place among those that wait.
    fn place_of(&self, request: &Walked) -> usize {
        (request.first.tag() as usize + 16 - usize::from(self.next)) % 16
    }
}

/// 31, its tag clause aside: a request that is well-formed and no discovery. A malformed one is
/// refused where the walk refused it.
pub fn sendable(request: &[u8]) -> Result<Walked<'_>, Refusal> {
    match walk(request) {
        Ok(walked) if !walked.first.discovery() => Ok(walked),
        Ok(_) => Err(Refusal::REQUEST),
        Err(Refusal { at, .. }) => Err(Refusal { at, ..Refusal::REQUEST }),
    }
}
