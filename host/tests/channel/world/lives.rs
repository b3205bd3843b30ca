//! Lives of the loader: how one begins, and what it leaves when it is over.

use super::super::met::Ended;
use super::super::pair::TwoEnds;
use super::{tags_of, Datagram, World};
use crate::common::naive;
use crate::Pair;
use charkhavo_host::plain::message::Kind;
use charkhavo_host::random::requests::{request, Wish};

/// How far a loader is that begins.
pub enum Opening {
    /// It has not asked.
    Unasked,
    /// It has asked. What is under way to it: answers to its own discoveries, and to strangers'.
    Asked { own: Vec<Vec<u8>>, strange: Vec<Vec<u8>> },
    /// It has its sender.
    Heard,
}

/// The lives that are over: for each the messages of its list that were carried out, fixed with its
/// end. And the memory that the first life found, and this one.
#[derive(Default)]
pub struct Past {
    parts: Vec<Vec<Vec<u8>>>,
    first: Vec<u32>,
    found: Vec<u32>,
}

impl Past {
    pub fn upon(memory: &[u32]) -> Past {
        Past { parts: Vec::new(), first: memory.to_vec(), found: memory.to_vec() }
    }
}

/// What these messages, one after another, make of memory. The tag record matters to NOPs alone,
/// which leave memory.
fn made<'a>(mut memory: Vec<u32>, messages: impl IntoIterator<Item = &'a Vec<u8>>) -> Vec<u32> {
    for message in messages {
        let request = naive::read(message).expect("well-formed");
        naive::carried(&request, &mut memory, &tags_of(None));
    }
    memory
}

impl World {
    pub fn heard(&self) -> bool {
        matches!(self.opening, Opening::Heard)
    }

    /// How many messages were carried out, of all lives.
    pub fn carried(&self) -> usize {
        self.past.parts.iter().map(Vec::len).sum::<usize>() + self.taken
    }

    /// Something happens while the loader has no sender: it asks, and that is lost or arrives; a
    /// stranger's discovery arrives; an answer to one of them comes to it, any number of times, or
    /// never; or another arrives, whole or cut short, whose answer may reach the sender later.
    pub fn opens(&mut self) {
        match self.random.below(6) {
            0 | 1 => self.asks(),
            2 => self.stranger(),
            3 => self.strange_answer(),
            4 => self.own_answer(),
            _ => self.discover(),
        }
    }

    /// The answer under way that comes to the loader, if there is one of this kind.
    fn coming(&mut self, own: bool) -> Option<Vec<u8>> {
        let Opening::Asked { own: ours, strange } = &self.opening else { return None };
        let answers = if own { ours } else { strange };
        let which = self.random.below(answers.len().max(1));
        answers.get(which).cloned()
    }

    /// The fixed discovery goes out.
    fn asks(&mut self) {
        if let Opening::Unasked = self.opening {
            self.opening = Opening::Asked { own: Vec::new(), strange: Vec::new() };
        }
        if self.random.one_in(2) {
            let answer = self.quiet(&Pair::discovery());
            if let Opening::Asked { own, .. } = &mut self.opening {
                own.push(answer);
            }
        }
    }

    /// A discovery of somebody else, a NOP or a read: its tag is not 0.
    fn stranger(&mut self) {
        let random = &mut self.random;
        let reads = random.one_in(2);
        let kind = if reads { Kind::Read } else { Kind::Nop };
        let (tag, memory) = (1 + random.word() % 15, self.memory.len());
        let wide = random.one_in(2);
        let bytes = request(random, Wish { kind, tag, wide, discovery: true, memory });
        let answer = self.quiet(&bytes);
        if let Opening::Asked { strange, .. } = &mut self.opening {
            strange.push(answer);
            self.met.strange(reads, tag);
        }
    }

    /// A discovery without writes comes to the controller: record and memory stay.
    fn quiet(&mut self, bytes: &[u8]) -> Vec<u8> {
        let before = self.pair.tag();
        let answer = self.pair.serve(&mut self.memory, bytes).expect("an answer");
        assert_eq!(self.pair.tag(), before);
        self.check_memory();
        answer
    }

    /// The loader takes an answer to a stranger for its own: it is refused, and no sender is made.
    fn strange_answer(&mut self) {
        if let Some(answer) = self.coming(false) {
            assert_eq!(self.pair.hear(&answer), Err(33));
            self.met.refused(33);
        }
    }

    /// The answer to its own makes the sender: its next tag is the one after the newest. What else
    /// is under way may come to the sender.
    fn own_answer(&mut self) {
        let Some(answer) = self.coming(true) else { return };
        assert_eq!(self.pair.hear(&answer), Ok(()));
        assert_eq!(self.pair.new_tag(), self.pair.tag().map_or(0, |tag| (tag + 1) % 16));
        assert_eq!(self.pair.waiting(), 0);
        let opening = std::mem::replace(&mut self.opening, Opening::Heard);
        if let Opening::Asked { own, strange } = opening {
            let late = own.into_iter().chain(strange);
            self.answers.extend(late.map(|bytes| Datagram { number: None, bytes }));
        }
    }

    /// The life is over, with a list of so many messages: the loader loses all it knows, and the
    /// channel what it carries; memory stays. By a reset the controller comes up fresh.
    pub fn dies(&mut self, list: usize) {
        let reset = self.random.one_in(3);
        self.met.life(reset, self.ended(list));
        let bytes = self.messages.iter().take(self.taken).map(|message| message.bytes.clone());
        let part: Vec<Vec<u8>> = bytes.collect();
        let found = std::mem::take(&mut self.past.found);
        assert!(self.memory == made(found, &part), "upon what the earlier lives left");
        if self.finished == list {
            assert_eq!(part.len(), list, "the whole list");
        }
        self.past.parts.push(part);
        self.past.found.clone_from(&self.memory);
        self.forget();
        if reset {
            self.pair.reset();
        }
    }

    /// How far a life came that is over.
    fn ended(&self, list: usize) -> Ended {
        match self.opening {
            Opening::Unasked => Ended::Unasked,
            Opening::Asked { .. } => Ended::Unanswered,
            Opening::Heard if self.finished == list => Ended::AfterTheLast,
            Opening::Heard => Ended::Waiting(self.pair.waiting()),
        }
    }

    /// Nothing is under way, and nothing known. The next list may be the same.
    fn forget(&mut self) {
        self.requests.clear();
        self.answers.clear();
        self.messages.clear();
        (self.taken, self.finished) = (0, 0);
        self.opening = Opening::Unasked;
        if self.random.one_in(2) {
            self.list.clear();
        }
    }

    /// Memory is what all lives made of it, one after another, each by its part.
    pub fn check_past(&self) {
        let parts = self.past.parts.iter().flatten();
        assert!(self.memory == made(self.past.first.clone(), parts));
    }
}
