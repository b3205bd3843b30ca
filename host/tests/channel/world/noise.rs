//! What else happens on the channel: arrivals by chance, strangers' discoveries, calls out of turn, and
//! sends whose answers come back at once.

use super::super::pair::TwoEnds;
use super::{Datagram, World};
use charkhavo_host::limits::PLACES;
use charkhavo_host::plain::message::Kind;
use charkhavo_host::random::requests::{request, Wish};

impl World {
    /// Something happens that is no offer and no send.
    pub fn noise(&mut self) {
        match self.random.below(13) {
            0..=4 if !self.requests.is_empty() => {
                let which = self.random.below(self.requests.len());
                self.arrive(which);
            }
            5..=10 if !self.answers.is_empty() => {
                let which = self.random.below(self.answers.len());
                self.back(which);
            }
            11 => self.discover(),
            12 => self.out_of_turn(),
            _ => {}
        }
    }

    /// Calls that are out of turn are refused and change nothing: a fifth offer; one of a tag that
    /// waits; sending while none waits, or what is answered or does not wait.
    fn out_of_turn(&mut self) {
        let waiting = self.pair.waiting();
        let newest = self.messages.last().map_or(&[][..], |message| &message.bytes);
        let (refused, expected) = match self.random.below(2) {
            0 => (self.pair.offer(newest), if waiting == PLACES { 36 } else { 31 }),
            _ => {
                let waits = self.pair.unanswered();
                let closed = (0..16).filter(|tag| !waits.contains(tag)).collect::<Vec<u32>>();
                let sent = self.pair.send(self.random.pick(&closed));
                (sent.map(|_| ()), if waiting == 0 { 30 } else { 31 })
            }
        };
        assert_eq!(refused, Err(expected));
        self.met.refused(expected);
        self.check_sender();
    }

    /// A send of the oldest that arrives and whose answer is back before the next.
    pub fn good_send(&mut self) {
        self.send(self.finished);
        let answer = self.newest_arrives(false).expect("answered");
        self.comes_back(answer, false);
    }

    /// The newest request under way arrives, or is lost; gives its answer.
    pub fn newest_arrives(&mut self, lost: bool) -> Option<Datagram> {
        let (newest, answers) = (self.requests.len() - 1, self.answers.len());
        if lost {
            self.requests.pop();
        } else {
            self.arrive(newest);
        }
        self.answers.get(answers).cloned()
    }

    /// This answer comes back, or is lost.
    pub fn comes_back(&mut self, answer: Datagram, lost: bool) {
        if !lost {
            self.answers.push(answer);
            self.back(self.answers.len() - 1);
        }
    }

    /// A discovery without writes, whole or cut short; its answer may reach the sender.
    pub fn discover(&mut self) {
        let random = &mut self.random;
        let kind = random.pick(&[Kind::Nop, Kind::Read]);
        let (tag, memory) = (random.word() % 16, self.memory.len());
        let wide = random.one_in(2);
        let mut bytes = request(random, Wish { kind, tag, wide, discovery: true, memory });
        if random.one_in(4) {
            bytes.truncate(random.between(4, bytes.len()));
        }
        let before = self.pair.tag();
        let answer = self.pair.serve(&mut self.memory, &bytes);
        assert_eq!(self.pair.tag(), before);
        self.came_of(None, answer);
    }
}
