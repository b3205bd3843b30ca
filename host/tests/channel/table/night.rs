//! Lives of a loader that loads a table, a controller, the channel between them, and the model.

use super::super::pair::{Loads, TwoEnds};
use crate::common::seen::Seen;
use crate::Pair;
use charkhavo_host::limits::{Rows, ROW, ROWS, TABLE};
use charkhavo_host::plain::message::Kind;
use charkhavo_host::random::requests::{request, Wish};
use charkhavo_host::random::table::rows;
use charkhavo_host::random::Random;

/// What the controller's memory is like.
#[derive(Clone, Copy, PartialEq)]
pub enum Memory {
    Good,
    /// A word of this row, counted from 1, does not hold what is written there.
    Stuck(usize),
    /// It ends before the mark.
    Short,
}

pub struct Night {
    pub random: Random,
    pair: Pair,
    memory: Vec<u32>,
    /// The word that does not hold, and what stands there.
    stuck: Option<(usize, u32)>,
    /// The table's first word.
    start: usize,
    requests: Vec<Vec<u8>>,
    answers: Vec<Vec<u8>>,
    /// Answers under way to the loader's own discoveries, in this life.
    own: Vec<Vec<u8>>,
    /// None while the loader asks.
    attempt: Option<<Pair as Loads>::Attempt>,
    /// The rows of each life, the present one's last.
    lives: Vec<Rows>,
    /// How many messages of this life were carried out, and what memory then is.
    carried: usize,
    model: Vec<u32>,
    pub refusals: Seen,
}

impl Night {
    pub fn new(seed: u64, kind: Memory) -> Night {
        let mut random = Random::new(seed);
        let start = random.below(40);
        let length =
            start + if kind == Memory::Short { TABLE - 1 } else { TABLE + random.below(9) };
        let mut memory = random.words(length);
        let stuck = match kind {
            Memory::Stuck(row) => Some((start + ROW * (row - 1) + random.below(ROW), 0xDEAD_BEEF)),
            _ => None,
        };
        if let Some((at, word)) = stuck {
            memory[at] = word;
        }
        Night {
            lives: vec![rows(&mut random)],
            pair: Pair::fresh(),
            model: memory.clone(),
            memory,
            stuck,
            start,
            requests: Vec::new(),
            answers: Vec::new(),
            own: Vec::new(),
            attempt: None,
            carried: 0,
            random,
            refusals: Seen::default(),
        }
    }

    fn rows(&self) -> &Rows {
        self.lives.last().expect("a life")
    }

    pub fn goes_on(&self) -> bool {
        self.attempt.as_ref().is_none_or(|attempt| Pair::came_to(attempt).is_none())
    }

    /// How far the life came: 100 while it asks, then how many of its messages were carried out; 200
    /// where it is done, and the row's number more where it has ended.
    pub fn came_to(&self) -> u32 {
        match self.attempt.as_ref().map(Pair::came_to) {
            None => 100,
            Some(None) => self.carried as u32,
            Some(Some(row)) => 200 + u32::from(row),
        }
    }

    /// The loader sends or hears, a datagram arrives, or a stranger asks.
    pub fn happens(&mut self) {
        match self.random.below(8) {
            0 | 1 => self.sends(),
            2..=4 => self.arrives(),
            5 | 6 => self.hears(),
            _ => self.stranger(),
        }
        self.check();
    }

    /// The loader sends its discovery or its message, which is lost or goes under way.
    fn sends(&mut self) {
        let bytes = match &self.attempt {
            None => Some(Pair::discovery().to_vec()),
            Some(attempt) => Pair::message(attempt).map(<[u8]>::to_vec),
        };
        if !self.random.one_in(4) {
            self.requests.extend(bytes);
        }
    }

    /// One of the datagrams under way comes to the controller; it may stay, to come again.
    fn arrives(&mut self) {
        let Some(bytes) = any(&mut self.random, &mut self.requests) else { return };
        let before = self.pair.tag();
        let answer = self.pair.serve(&mut self.memory, &bytes).expect("an answer");
        if bytes == Pair::discovery() {
            return self.own.push(answer);
        }
        if self.pair.tag() != before {
            self.carries_out();
        }
        self.answers.push(answer);
    }

    /// The next message is carried out: the model's turn.
    fn carries_out(&mut self) {
        let mark = self.start + ROW * ROWS;
        match self.carried {
            1 => {
                let rows = numbered(self.rows());
                self.model[self.start..mark].copy_from_slice(&rows);
            }
            0 | 3 if mark < self.model.len() => self.model[mark] = 8 * self.carried as u32,
            _ => {}
        }
        self.carried += 1;
        if let Some((at, word)) = self.stuck {
            (self.memory[at], self.model[at]) = (word, word);
        }
    }

    /// An answer comes to the loader, or none in time. It takes that to its own message, and no other.
    fn hears(&mut self) {
        let Some(attempt) = &mut self.attempt else { return self.opens() };
        let came = any(&mut self.random, &mut self.answers).unwrap_or_default();
        let tag = Pair::message(attempt).map(|message| message[0] & 15);
        if let Err(refusal) = Pair::take_on(attempt, &came) {
            let other = came.first().is_none_or(|byte| Some(*byte) != tag.map(|tag| 0x30 | tag));
            assert!(other, "the answer to its own is taken");
            if tag.is_some() {
                self.refusals.note(refusal);
            }
        }
    }

    /// The loader takes an answer to its own discovery, and the attempt begins.
    fn opens(&mut self) {
        if let Some(answer) = any(&mut self.random, &mut self.own) {
            assert_eq!(self.pair.hear(&answer), Ok(()));
            self.attempt = Some(self.pair.begin(4 * self.start as u64, self.rows()));
            self.answers.append(&mut self.own);
        }
    }

    /// A stranger's discovery, of another tag than 0; its answer may come to the loader.
    fn stranger(&mut self) {
        let random = &mut self.random;
        let kind = random.pick(&[Kind::Nop, Kind::Read]);
        let (tag, memory) = (1 + random.word() % 15, self.memory.len());
        let wish = Wish { kind, tag, wide: random.one_in(2), discovery: true, memory };
        let bytes = request(random, wish);
        let answer = self.pair.serve(&mut self.memory, &bytes).expect("an answer");
        match self.attempt {
            None => assert_eq!(self.pair.hear(&answer), Err(33)),
            Some(_) => self.answers.push(answer),
        }
    }

    /// The loader loses all it knows, and the channel what it carries; seldom the controller is reset.
    pub fn dies(&mut self) {
        self.requests.clear();
        self.answers.clear();
        self.own.clear();
        (self.attempt, self.carried) = (None, 0);
        if self.random.one_in(3) {
            self.pair.reset();
        }
        self.lives.push(rows(&mut self.random));
        self.check();
    }

    /// Memory is the model's. If the mark is 24, all rows are those of one life; if this one is done,
    /// its own; if it ended, the mark is 0.
    fn check(&self) {
        assert!(self.memory == self.model, "after {} messages", self.carried);
        let table = &self.memory[self.start..][..ROW * ROWS];
        let mark = self.memory.get(self.start + ROW * ROWS).copied();
        if mark == Some(24) {
            assert!(
                self.lives.iter().rev().any(|rows| table == numbered(rows)),
                "rows of one life"
            );
        }
        match self.attempt.as_ref().and_then(Pair::came_to) {
            None => {}
            Some(0) => assert!(mark == Some(24) && table == numbered(self.rows())),
            Some(25) => assert_eq!(mark, None),
            Some(row) => {
                assert_eq!(mark, Some(0));
                let (at, _) = self.stuck.expect("a word that does not hold");
                assert_eq!(usize::from(row), (at - self.start) / ROW + 1);
            }
        }
    }
}

/// One of the datagrams under way, any of them, which may stay.
fn any(random: &mut Random, under_way: &mut Vec<Vec<u8>>) -> Option<Vec<u8>> {
    let which = random.below(under_way.len().max(1));
    let bytes = under_way.get(which)?.clone();
    if random.one_in(2) || under_way.len() > 20 {
        under_way.swap_remove(which);
    }
    Some(bytes)
}

/// The rows with their numbers, one behind another.
fn numbered(rows: &Rows) -> Vec<u32> {
    (1..).zip(rows).flat_map(|(number, row)| [&[number], &row[..]].concat()).collect()
}
