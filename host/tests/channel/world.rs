//! Both ends and the channel between them, event by event, with the model of what must come.

mod list;
mod lives;
mod noise;

use super::met::Met;
use super::pair::{Told, TwoEnds};
use crate::common::{naive, naive_sender};
use crate::Pair;
use charkhavo_host::limits::PLACES;
use charkhavo_host::plain::message::Kind;
use charkhavo_host::plain::TagRecord;
use charkhavo_host::random::requests::{request, Wish};
use charkhavo_host::random::{bytes_of, Random};
use list::List;
use lives::{Opening, Past};

/// A message of the list.
struct Message {
    bytes: Vec<u8>,
    /// The model's, once the message was accepted.
    answer: Vec<u8>,
    /// Whether the sender has taken an answer to it.
    answered: bool,
}

impl Message {
    fn tag(&self) -> u32 {
        u32::from(self.bytes[0] & 15)
    }
}

/// A datagram under way. `number` says which message of the list it is or answers; none for
/// discoveries and their answers.
#[derive(Clone)]
pub struct Datagram {
    number: Option<usize>,
    bytes: Vec<u8>,
}

/// No request arrives this much behind the last accepted one, and no answer one more than this
/// behind any message that waits, so behind the newest.
pub const TOO_OLD: usize = 15;
/// Copies under way that the channel remembers; beyond, it loses one.
const REMEMBERED: usize = 48;

/// Both ends, the channel between them, and the model.
pub struct World {
    pub random: Random,
    memory: Vec<u32>,
    pub pair: Pair,
    // The channel.
    requests: Vec<Datagram>,
    answers: Vec<Datagram>,
    // The model: the life's list, all messages of it offered, and memory after the first `taken` of
    // them.
    list: List,
    messages: Vec<Message>,
    model: Vec<u32>,
    pub taken: usize,
    pub finished: usize,
    /// How often the oldest unfinished message was sent.
    pub sends: usize,
    /// The loader's start, and the lives before this one.
    opening: Opening,
    past: Past,
    pub met: Met,
}

impl World {
    /// A fresh pair, or a controller that some messages came to before and a sender made from its
    /// discovery answer.
    pub fn new(seed: u64) -> World {
        let mut random = Random::new(seed);
        let length = random.pick(&[1, 2, 9, 40, 200, 500]);
        let memory = random.words(length);
        let mut world = World {
            model: Vec::new(),
            memory,
            pair: Pair::fresh(),
            requests: Vec::new(),
            answers: Vec::new(),
            list: List::default(),
            messages: Vec::new(),
            random,
            taken: 0,
            finished: 0,
            sends: 0,
            opening: Opening::Heard,
            past: Past::default(),
            met: Met::default(),
        };
        let before = world.random.pick(&[0, 0, 1, 2, 3, 4, 5, 14, 15, 16, 17, 30]);
        for number in 0..before {
            let (tag, memory) = (number % 16, world.memory.len());
            let wish = Wish { kind: Kind::Read, tag, wide: false, discovery: false, memory };
            let message = request(&mut world.random, wish);
            world.pair.serve(&mut world.memory, &message).expect("an answer");
        }
        if before > 0 {
            world.restart();
        }
        assert_eq!(world.pair.new_tag(), before % 16);
        world.model.clone_from(&world.memory);
        world.past = Past::upon(&world.memory);
        world
    }

    /// The loader starts anew and asks the controller where to go on.
    pub fn restart(&mut self) {
        let answer = self.pair.serve(&mut self.memory, &Pair::discovery()).expect("an answer");
        self.pair.hear(&answer).expect("a sender");
    }

    pub fn offered(&self) -> usize {
        self.messages.len()
    }

    /// Builds a message and offers it.
    pub fn offer(&mut self) {
        let bytes = self.next_of_list();
        assert_eq!(self.pair.offer(&bytes), Ok(()));
        self.messages.push(Message { bytes, answer: Vec::new(), answered: false });
        let offered = self.offered();
        self.answers.retain(|copy| copy.number.is_none_or(|n| offered <= n + TOO_OLD + 1));
        self.check_sender();
    }

    /// The numbers of the messages that wait and are not answered, the oldest first.
    pub fn unanswered(&self) -> Vec<usize> {
        (self.finished..self.offered()).filter(|n| !self.messages[*n].answered).collect()
    }

    /// The sender says of what waits as the model does.
    fn check_sender(&self) {
        let tags: Vec<u32> =
            self.unanswered().into_iter().map(|n| self.messages[n].tag()).collect();
        assert_eq!(self.pair.waiting(), self.offered() - self.finished);
        assert_eq!(self.pair.unanswered(), tags);
    }

    /// A message's bytes go under way.
    pub fn send(&mut self, number: usize) {
        let message = &self.messages[number];
        let bytes = self.pair.send(message.tag()).expect("sent");
        assert!(bytes == message.bytes);
        self.sends += usize::from(number == self.finished);
        if self.requests.len() == REMEMBERED {
            let lost = self.random.below(REMEMBERED);
            self.requests.swap_remove(lost);
        }
        self.requests.push(Datagram { number: Some(number), bytes });
    }

    /// One of the requests under way arrives; it may stay, to arrive again. The next is carried out,
    /// the last four are answered as they were, and all others are out of step.
    fn arrive(&mut self, which: usize) {
        let copy = self.requests[which].clone();
        if self.random.one_in(4) {
            self.requests.swap_remove(which);
        }
        let number = copy.number.expect("a message");
        self.met.request(number, self.taken);
        let before = self.pair.tag();
        let answer = self.pair.serve(&mut self.memory, &copy.bytes);
        if number == self.taken {
            let request = naive::read(&copy.bytes).expect("well-formed");
            let words = naive::carried(&request, &mut self.model, &tags_of(before));
            self.messages[number].answer = bytes_of(&words);
            self.taken += 1;
            self.requests.retain(|copy| self.taken <= copy.number.unwrap() + TOO_OLD);
        }
        let last_four = number < self.taken && self.taken <= number + 4;
        match last_four {
            true => assert!(answer.as_ref() == Ok(&self.messages[number].answer)),
            false => assert_eq!(answer, Err(11)),
        }
        self.came_of(Some(number), answer);
    }

    /// What the controller made of a datagram: an answer goes under way.
    fn came_of(&mut self, number: Option<usize>, answer: Result<Vec<u8>, u32>) {
        match answer {
            Ok(bytes) => self.answers.push(Datagram { number, bytes }),
            Err(refusal) => self.met.refused(refusal),
        }
        self.check_memory();
    }

    /// k lies between the number finished and four more, and memory is what the first k make of it.
    fn check_memory(&mut self) {
        let unfinished = self.taken - self.finished;
        assert!(unfinished <= PLACES);
        self.met.unfinished(unfinished);
        assert!(self.memory == self.model, "after {} messages", self.taken);
    }

    /// One of the answers under way comes back; it may stay, to come back again.
    fn back(&mut self, which: usize) {
        let copy = self.answers[which].clone();
        if self.random.one_in(4) || self.answers.len() > REMEMBERED {
            self.answers.swap_remove(which);
        }
        let none_waits = self.pair.waiting() == 0;
        let taken = self.pair.take(&copy.bytes);
        if let Err(refusal) = taken {
            self.met.refused(refusal);
        }
        if let Some(number) = copy.number {
            self.met.answer(self.offered() - 1 - number);
        }
        match copy.number.filter(|n| self.unanswered().contains(n)) {
            Some(number) => {
                assert!(copy.bytes == self.messages[number].answer);
                self.messages[number].answered = true;
                self.check_outcomes(&taken.expect("the answer to one that waits is taken"));
            }
            None => assert_eq!(taken, Err(if none_waits { 30 } else { 33 }), "no such one waits"),
        }
        self.check_sender();
    }

    /// The messages that end are the oldest, up to the first that is not answered, and their
    /// outcomes, in order, are those of the model's carrying out.
    fn check_outcomes(&mut self, told: &[Told]) {
        let waiting = &self.messages[self.finished..];
        assert_eq!(told.len(), waiting.iter().take_while(|message| message.answered).count());
        self.met.ended(told.len());
        for told in told {
            self.check_outcome(told);
            self.finished += 1;
        }
    }

    fn check_outcome(&mut self, told: &Told) {
        let Message { bytes, answer, .. } = &self.messages[self.finished];
        let request = naive::read(bytes).expect("well-formed");
        let kind = request.byte0 >> 4 & 3;
        let model = naive_sender::judge(&request, answer).expect("a right answer");
        assert_eq!(told.len(), model.len());
        for ((status, data), (expected, start, end)) in told.iter().zip(model) {
            assert_eq!(*status, expected);
            let read = kind == 2 && *status == 0;
            assert_eq!(*data, if read { &answer[start..end] } else { &[] });
            self.met.command(kind, *status);
        }
    }
}

/// A record that holds this tag, for the model's advertisement.
fn tags_of(tag: Option<u32>) -> TagRecord {
    TagRecord { held: tag.iter().len() as u32, tag: tag.unwrap_or(0), ..TagRecord::fresh() }
}
