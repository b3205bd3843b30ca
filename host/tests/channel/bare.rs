//! Two ends made of the calls of any ends and of buffers that stand beside them.

use super::pair::{check_added, Loads, Told, TwoEnds};
use crate::common::{place_of, Ends, Given};
use charkhavo_host::limits::{Rows, BYTES, KEPT, PLACES, STORED, TABLE};
use charkhavo_host::plain::table::Attempt;
use charkhavo_host::plain::{Addition, Building, Sender, TagRecord};
use std::marker::PhantomData;

pub struct Bare<E> {
    stored: Vec<u32>,
    kept: Vec<u8>,
    output: Vec<u8>,
    tags: TagRecord,
    sender: Sender,
    /// Each at the place of its tag.
    messages: [Vec<u8>; PLACES],
    answers: [Vec<u8>; PLACES],
    /// Whether the buffers were, at the last reset.
    cleared: bool,
    ends: PhantomData<E>,
}

fn result<T>((refusal, given): Given<T>) -> Result<T, u32> {
    match refusal.number {
        0 => Ok(given),
        number => Err(number),
    }
}

impl<E: Ends> Bare<E> {
    /// The tag of the message that is so many behind the oldest.
    fn tag_behind(&self, k: usize) -> u32 {
        (u32::from(self.sender.next) + k as u32) % 16
    }

    /// What the answer at a place tells of the message there.
    fn told(&self, place: usize) -> Told {
        let (message, answer) = (&self.messages[place], &self.answers[place]);
        let told = |k| {
            let (start, length) = E::read_data(message, answer, k);
            (E::status(message, answer, k), answer[start..start + length].to_vec())
        };
        (0..E::count(message, answer)).map(told).collect()
    }
}

impl<E: Ends> TwoEnds for Bare<E> {
    fn fresh() -> Bare<E> {
        Bare {
            stored: vec![0x3333_3333; STORED],
            kept: vec![0x66; KEPT],
            output: vec![0x44; BYTES],
            tags: TagRecord::fresh(),
            sender: E::fresh(),
            messages: Default::default(),
            answers: Default::default(),
            cleared: false,
            ends: PhantomData,
        }
    }

    fn tag(&self) -> Option<u32> {
        (self.tags.held != 0).then_some(self.tags.tag)
    }

    fn serve(&mut self, memory: &mut [u32], datagram: &[u8]) -> Result<Vec<u8>, u32> {
        let Bare { stored, kept, output, tags, .. } = self;
        let sent = result(E::serve(memory, stored, kept, output, tags, datagram))?;
        Ok(output[..sent].to_vec())
    }

    fn discovery() -> [u8; 12] {
        E::discovery()
    }

    fn hear(&mut self, answer: &[u8]) -> Result<(), u32> {
        self.sender = result(E::discovered(answer))?;
        Ok(())
    }

    /// Every second time its buffers are cleared too.
    fn reset(&mut self) {
        self.cleared = !self.cleared;
        if self.cleared {
            let Bare { stored, kept, output, .. } = Self::fresh();
            (self.stored, self.kept, self.output) = (stored, kept, output);
        }
        self.tags = TagRecord::fresh();
    }

    fn new_tag(&self) -> u32 {
        self.tag_behind(self.waiting())
    }

    fn waiting(&self) -> usize {
        self.sender.waiting.into()
    }

    fn unanswered(&self) -> Vec<u32> {
        let open = |k: &usize| *k == 0 || !self.sender.answered[*k - 1];
        (0..self.waiting()).filter(open).map(|k| self.tag_behind(k)).collect()
    }

    fn build(&self, kind: u32, wide: bool, commands: &[Addition]) -> Vec<u8> {
        let mut output = vec![0x55; BYTES];
        let (tag, empty) = (self.new_tag(), Building::EMPTY);
        let begun = result(E::begin(&output, empty, kind, tag, wide, false));
        let mut building = begun.expect("begun");
        for command in commands {
            let (refusal, after) = E::add(&mut output, building, *command);
            check_added(refusal.number);
            building = after;
        }
        let closed = result(E::close(&mut output, building)).expect("closed");
        output.truncate(4 * closed.words);
        output
    }

    fn offer(&mut self, message: &[u8]) -> Result<(), u32> {
        let place = place_of(self.new_tag());
        self.sender = result(E::offer(self.sender, message))?;
        self.messages[place] = message.to_vec();
        Ok(())
    }

    fn send(&self, tag: u32) -> Result<Vec<u8>, u32> {
        let asked = self.unanswered().contains(&tag);
        let message = if asked { &self.messages[place_of(tag)][..] } else { &[] };
        let length = result(E::send(self.sender, message))?;
        Ok(message[..length].to_vec())
    }

    fn take(&mut self, answer: &[u8]) -> Result<Vec<Told>, u32> {
        let oldest = self.tag_behind(0);
        let asked = self.unanswered().into_iter().find(|tag| *tag == u32::from(answer[0] & 15));
        let place = place_of(asked.unwrap_or(oldest));
        let (after, ended) = result(E::take(self.sender, &self.messages[place], answer))?;
        self.answers[place] = answer.to_vec();
        let ended = 0..u32::from(ended);
        let told = ended.map(|k| self.told(place_of(oldest + k))).collect();
        self.sender = after;
        Ok(told)
    }
}

/// An attempt with its message and what that was made of.
pub struct BareAttempt {
    attempt: Attempt,
    message: Vec<u8>,
    start: u64,
    rows: Rows,
}

impl BareAttempt {
    /// The next message, if there is one.
    fn make<E: Ends>(&mut self) {
        if self.attempt.stage < 4 {
            let BareAttempt { attempt, start, rows, .. } = *self;
            self.message.resize(BYTES, 0x88);
            let room = TABLE as u64;
            let made = E::table_message(&mut self.message, attempt, start, room, &rows);
            let (length, attempt) = result(made).expect("a message");
            self.message.truncate(length);
            self.attempt = attempt;
        }
    }
}

impl<E: Ends> Loads for Bare<E> {
    type Attempt = BareAttempt;

    fn begin(&self, start: u64, rows: &Rows) -> BareAttempt {
        assert_eq!(E::set_up(start, TABLE as u64).number, 0);
        let attempt = E::attempt(self.sender);
        let mut begun = BareAttempt { attempt, message: Vec::new(), start, rows: *rows };
        begun.make::<E>();
        begun
    }

    fn message(attempt: &BareAttempt) -> Option<&[u8]> {
        (attempt.attempt.stage < 4).then_some(&attempt.message)
    }

    fn take_on(attempt: &mut BareAttempt, answer: &[u8]) -> Result<(), u32> {
        let taken = E::table_take(attempt.attempt, &attempt.message, answer, &attempt.rows);
        attempt.attempt = result(taken)?;
        attempt.make::<E>();
        Ok(())
    }

    fn came_to(attempt: &BareAttempt) -> Option<u8> {
        (attempt.attempt.stage >= 4).then_some(attempt.attempt.row)
    }
}
