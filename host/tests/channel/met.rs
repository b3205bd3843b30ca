//! What a night over the channel has met: a night without some case must not pass.

use crate::common::seen::Seen;

#[derive(Default)]
pub struct Met {
    refusals: Seen,
    /// 10 times the kind plus the status.
    commands: Seen,
    /// How far behind the last accepted one requests arrived.
    behind: Seen,
    /// How far ahead of it.
    ahead: Seen,
    /// How far behind the newest message answers came back.
    answers: Seen,
    /// How many messages ended with an answer that was taken.
    ended: Seen,
    /// How many messages more were carried out than were finished.
    unfinished: Seen,
    /// How lives ended: by a restart, and by a reset of the controller.
    restarts: Seen,
    resets: Seen,
    /// Tags of strangers' discoveries, of reads plus 16.
    strange: Seen,
}

/// How far a life had come when it ended.
#[derive(Clone, Copy)]
pub enum Ended {
    Unasked,
    Unanswered,
    /// So many messages waited, and the list was not finished.
    Waiting(usize),
    AfterTheLast,
}

impl Ended {
    fn number(self) -> u32 {
        match self {
            Ended::Waiting(many) => many as u32,
            Ended::AfterTheLast => 10,
            Ended::Unasked => 11,
            Ended::Unanswered => 12,
        }
    }
}

impl Met {
    pub fn refused(&mut self, number: u32) {
        self.refusals.note(number);
    }

    pub fn command(&mut self, kind: u32, status: u32) {
        self.commands.note(10 * kind + status);
    }

    /// A request arrived when so many were accepted.
    pub fn request(&mut self, number: usize, accepted: usize) {
        match accepted.checked_sub(number + 1) {
            Some(behind) => self.behind.note(behind as u32),
            None => self.ahead.note((number + 1 - accepted) as u32),
        }
    }

    /// An answer came back so much behind the newest message.
    pub fn answer(&mut self, behind: usize) {
        self.answers.note(behind as u32);
    }

    pub fn ended(&mut self, many: usize) {
        self.ended.note(many as u32);
    }

    pub fn unfinished(&mut self, many: usize) {
        self.unfinished.note(many as u32);
    }

    pub fn life(&mut self, reset: bool, ended: Ended) {
        let lives = if reset { &mut self.resets } else { &mut self.restarts };
        lives.note(ended.number());
    }

    pub fn strange(&mut self, reads: bool, tag: u32) {
        self.strange.note(tag + 16 * u32::from(reads));
    }

    pub fn add(&mut self, other: Met) {
        self.refusals.add(other.refusals);
        self.commands.add(other.commands);
        self.behind.add(other.behind);
        self.ahead.add(other.ahead);
        self.answers.add(other.answers);
        self.ended.add(other.ended);
        self.unfinished.add(other.unfinished);
        self.restarts.add(other.restarts);
        self.resets.add(other.resets);
        self.strange.add(other.strange);
    }

    /// Requests too old, early and cut short, answers of another tag and to discoveries, calls out of
    /// turn, and never 12; NOPs, writes and reads, the last two with Error too; every age that is
    /// allowed; early requests and early answers; one to four ended at once; all four carried out
    /// and none finished.
    pub fn all(&self, too_old: usize) {
        let too_old = too_old as u32;
        self.refusals.exactly([2, 3, 11, 30, 31, 33, 36]);
        self.commands.exactly([0, 10, 12, 20, 22]);
        self.behind.exactly(0..too_old);
        self.ahead.exactly(1..=4);
        self.answers.exactly(0..=too_old);
        self.ended.exactly(0..=4);
        self.unfinished.exactly(0..=4);
    }

    /// Restarts and resets before the loader has asked, before it is answered, with none to four
    /// waiting, and after the last message; strangers' NOPs and reads of every tag but 0.
    pub fn all_lives(&self) {
        for lives in [&self.restarts, &self.resets] {
            lives.exactly((0..=4).chain(10..=12));
        }
        self.strange.exactly((1..16).chain(17..32));
    }
}
