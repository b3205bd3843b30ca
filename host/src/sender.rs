//! The loader's sender, through its library.

use crate::ffi;
use crate::limits::{BYTES, PLACES};
use crate::outcome::Outcome;
use crate::refusal::Refusal;

/// A sender with a place for each of the four messages that may wait, and for their answers. A
/// refused call changes nothing.
#[derive(Clone, Debug, PartialEq, Eq)]
pub struct Sender {
    record: ffi::Sender,
    /// A message's place is its tag modulo four.
    places: [Place; PLACES],
}

impl Sender {
    /// The sender of a fresh pair: its next tag is 0.
    pub fn fresh() -> Sender {
        Sender::with(ffi::fresh())
    }

    /// The fixed discovery, which asks a controller for its newest tag. After a restart of either
    /// end throw away everything that was sent or received before, and send this first.
    pub fn discovery() -> [u8; 12] {
        ffi::discovery()
    }

    /// The sender that an answer to that datagram makes: 32 to 35, 38. Give it only the answer to
    /// that very discovery: the one to somebody else's read of two words by a discovery with tag 0
    /// looks the same. All others send discoveries with another tag than 0; their answers are 33.
    pub fn discovered(answer: &[u8]) -> Result<Sender, Refusal> {
        let moved = ffi::discovered(answer);
        moved.refusal.result()?;
        Ok(Sender::with(moved.sender))
    }

    fn with(record: ffi::Sender) -> Sender {
        Sender { record, places: [const { Place::EMPTY }; PLACES] }
    }

    pub(crate) fn into_record(self) -> ffi::Sender {
        self.record
    }

    /// The tag of the message to offer: the one after the newest.
    pub fn new_tag(&self) -> u32 {
        tag_behind(self.record, self.waiting())
    }

    /// How many messages wait, answered ones among them: four at most.
    pub fn waiting(&self) -> usize {
        self.record.waiting.into()
    }

    /// The tags of the messages that wait and are not answered, the oldest first.
    pub fn unanswered(&self) -> impl Iterator<Item = u32> {
        let record = self.record;
        let answered = [false, record.second, record.third, record.fourth];
        let waiting = (0..record.waiting.into()).filter(move |k| !answered[*k]);
        waiting.map(move |k| tag_behind(record, k))
    }

    /// Offers a message, which is copied and waits: 36, 31.
    pub fn offer(&mut self, message: &[u8]) -> Result<(), Refusal> {
        let moved = ffi::offer(self.record, message);
        moved.refusal.result()?;
        let place = place_of(self.new_tag());
        self.places[place].message.put(message);
        self.record = moved.sender;
        Ok(())
    }

    /// The bytes of the unanswered message of this tag, any number of times: 30, and 31 where there
    /// is none.
    pub fn send(&self, tag: u32) -> Result<&[u8], Refusal> {
        let asked = self.unanswered().find(|unanswered| *unanswered == tag);
        let message = asked.map_or(&[][..], |tag| self.places[place_of(tag)].message.bytes());
        let sending = ffi::send(self.record, message);
        sending.refusal.result()?;
        Ok(&message[..sending.length])
    }

    /// Takes an answer, which is copied: 30, 32 to 35, of them 33 for one that has no unanswered
    /// message's tag. Gives the outcomes of the messages that it ends: of the oldest and of the
    /// answered ones right behind it, or of none where it came before an older one's.
    pub fn take(&mut self, answer: &[u8]) -> Result<Outcomes<'_>, Refusal> {
        let oldest = tag_behind(self.record, 0);
        let given = answer.first().map(|byte| u32::from(byte & 15));
        let asked = self.unanswered().find(|tag| given == Some(*tag));
        let place = &mut self.places[place_of(asked.unwrap_or(oldest))];
        let taken = ffi::take(self.record, place.message.bytes(), answer);
        taken.refusal.result()?;
        place.answer.put(answer);
        self.record = taken.sender;
        Ok(Outcomes { places: &self.places, tag: oldest, left: taken.ended.into() })
    }
}

/// The tag of the message that is so many behind the oldest.
fn tag_behind(record: ffi::Sender, k: usize) -> u32 {
    (u32::from(record.next) + k as u32) % 16
}

fn place_of(tag: u32) -> usize {
    tag as usize % PLACES
}

/// A message, and its answer once that was accepted.
#[derive(Clone, Debug, PartialEq, Eq)]
struct Place {
    message: Datagram,
    answer: Datagram,
}

impl Place {
    const EMPTY: Place = Place { message: Datagram::EMPTY, answer: Datagram::EMPTY };
}

#[derive(Clone, Debug, PartialEq, Eq)]
struct Datagram {
    room: [u8; BYTES],
    length: usize,
}

impl Datagram {
    const EMPTY: Datagram = Datagram { room: [0; BYTES], length: 0 };

    /// Copies what a call has accepted, so that it is not over the limit.
    fn put(&mut self, bytes: &[u8]) {
        self.room[..bytes.len()].copy_from_slice(bytes);
        self.length = bytes.len();
    }

    fn bytes(&self) -> &[u8] {
        &self.room[..self.length]
    }
}

/// The outcomes of the messages that an answer ended, in order of tag.
#[derive(Clone, Debug, PartialEq, Eq)]
pub struct Outcomes<'a> {
    places: &'a [Place; PLACES],
    tag: u32,
    left: usize,
}

impl<'a> Iterator for Outcomes<'a> {
    type Item = Outcome<'a>;

    fn next(&mut self) -> Option<Outcome<'a>> {
        self.left = self.left.checked_sub(1)?;
        let Place { message, answer } = &self.places[place_of(self.tag)];
        self.tag += 1;
        Some(Outcome::new(message.bytes(), answer.bytes()))
    }

    fn size_hint(&self) -> (usize, Option<usize>) {
        (self.left, Some(self.left))
    }
}

impl ExactSizeIterator for Outcomes<'_> {}
