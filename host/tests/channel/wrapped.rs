//! Two ends made of the libraries' wrappers.

use super::pair::{check_added, Loads, Told, TwoEnds};
use charkhavo_host::builder::{Builder, Enables, Head, Kind, Nop, Read, Write};
use charkhavo_host::limits::{Rows, TABLE};
use charkhavo_host::plain::Addition;
use charkhavo_host::table::{Attempt, SetUp, State};
use charkhavo_host::{Controller, Outcome, Refusal, Sender, Status};

pub struct Wrapped {
    controller: Controller,
    /// Whether its buffers were cleared at the last reset: at every second one.
    cleared: bool,
    sender: Sender,
}

fn number(refusal: Refusal) -> u32 {
    refusal.number
}

impl TwoEnds for Wrapped {
    fn fresh() -> Wrapped {
        Wrapped { controller: Controller::fresh(), cleared: true, sender: Sender::fresh() }
    }

    fn tag(&self) -> Option<u32> {
        self.controller.tag()
    }

    fn serve(&mut self, memory: &mut [u32], datagram: &[u8]) -> Result<Vec<u8>, u32> {
        self.controller.serve(memory, datagram).map(<[u8]>::to_vec).map_err(number)
    }

    fn discovery() -> [u8; 12] {
        Sender::discovery()
    }

    fn hear(&mut self, answer: &[u8]) -> Result<(), u32> {
        self.sender = Sender::discovered(answer).map_err(number)?;
        Ok(())
    }

    fn reset(&mut self) {
        self.cleared = !self.cleared;
        if self.cleared {
            self.controller = Controller::fresh();
        } else {
            self.controller.reset();
        }
    }

    fn new_tag(&self) -> u32 {
        self.sender.new_tag()
    }

    fn waiting(&self) -> usize {
        self.sender.waiting()
    }

    fn unanswered(&self) -> Vec<u32> {
        self.sender.unanswered().collect()
    }

    fn build(&self, kind: u32, wide: bool, commands: &[Addition]) -> Vec<u8> {
        let head = Head { tag: self.sender.new_tag(), wide, discovery: false };
        match kind {
            0 => built::<Nop>(head, commands, |builder, added| builder.nop(added.data)),
            1 => built::<Write>(head, commands, |builder, added| {
                let enables = Enables { first: added.first, last: added.last };
                builder.write(added.address, enables, added.data)
            }),
            _ => built::<Read>(head, commands, |builder, added| {
                builder.read(added.address, added.count)
            }),
        }
    }

    fn offer(&mut self, message: &[u8]) -> Result<(), u32> {
        self.sender.offer(message).map_err(number)
    }

    fn send(&self, tag: u32) -> Result<Vec<u8>, u32> {
        self.sender.send(tag).map(<[u8]>::to_vec).map_err(number)
    }

    fn take(&mut self, answer: &[u8]) -> Result<Vec<Told>, u32> {
        Ok(self.sender.take(answer).map_err(number)?.map(told).collect())
    }
}

impl Loads for Wrapped {
    type Attempt = Attempt;

    fn begin(&self, start: u64, rows: &Rows) -> Attempt {
        let set_up = SetUp::new(start, TABLE as u64).expect("a set-up");
        Attempt::begin(set_up, *rows, self.sender.clone()).expect("an attempt")
    }

    fn message(attempt: &Attempt) -> Option<&[u8]> {
        attempt.message()
    }

    fn take_on(attempt: &mut Attempt, answer: &[u8]) -> Result<(), u32> {
        let state = attempt.take(answer).map_err(number)?;
        assert_eq!(state, attempt.state());
        Ok(())
    }

    fn came_to(attempt: &Attempt) -> Option<u8> {
        match attempt.state() {
            State::Waits => None,
            State::Done => Some(0),
            State::Ended(row) => Some(row),
        }
    }
}

fn told(outcome: Outcome) -> Told {
    let told = |k| (code(outcome.status(k)), outcome.read_data(k).to_vec());
    (0..outcome.count()).map(told).collect()
}

fn built<K: Kind>(
    head: Head,
    commands: &[Addition],
    add: impl Fn(&mut Builder<K>, &Addition) -> Result<(), Refusal>,
) -> Vec<u8> {
    let mut builder = Builder::begin(head).expect("begun");
    for command in commands {
        check_added(add(&mut builder, command).map_or_else(number, |()| 0));
    }
    builder.close().expect("closed").to_vec()
}

fn code(status: Option<Status>) -> u32 {
    match status.expect("answered") {
        Status::Ok => 0,
        Status::Timeout => 1,
        Status::Error => 2,
    }
}
