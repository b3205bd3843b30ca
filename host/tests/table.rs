//! The wrapper of the training table by hand: what each call gives, and that a refusal changes nothing.

use charkhavo_host::limits::Rows;
use charkhavo_host::random::bytes_of;
use charkhavo_host::table::{Attempt, SetUp, State};
use charkhavo_host::{Controller, Refusal, Sender};

const ROWS: Rows = [[7; 7]; 24];

fn refused<T>(number: u32) -> Result<T, Refusal> {
    Err(Refusal::of(number))
}

fn begin(sender: Sender) -> Result<Attempt, Refusal> {
    Attempt::begin(SetUp::new(0x40, 193)?, ROWS, sender)
}

#[test]
fn set_ups() {
    assert!(SetUp::new(0, 193).is_ok() && SetUp::new((1 << 32) - 772, 193).is_ok());
    assert_eq!(SetUp::new(0, 192), refused(40));
    assert_eq!(SetUp::new(2, 193), refused(40));
    assert_eq!(SetUp::new((1 << 32) - 768, 193), refused(40));
}

#[test]
fn an_attempt_keeps_its_message_until_it_is_answered() {
    let mut attempt = begin(Sender::fresh()).unwrap();
    let clear = bytes_of(&[0x8001_0F10, 0x340, 0]);
    assert_eq!((attempt.state(), attempt.message()), (State::Waits, Some(&clear[..])));
    let before = attempt.clone();
    assert_eq!(attempt.take(&[]), refused(32), "none came in time");
    assert_eq!(attempt.take(&bytes_of(&[0x8000_0031])), refused(33));
    assert_eq!(attempt.take(&bytes_of(&[0x8000_0330])), refused(34));
    assert_eq!(attempt.take(&bytes_of(&[0x0000_0030])), refused(35));
    assert!(attempt == before);
    assert_eq!(attempt.take(&bytes_of(&[0x8000_0030])), Ok(State::Waits));
    let rows = attempt.message().unwrap();
    assert_eq!((rows.len(), &rows[..12]), (960, &bytes_of(&[0x0008_FF11, 0x40, 1])[..]));
}

#[test]
fn no_attempt_begins_while_a_message_waits() {
    let mut sender = Sender::fresh();
    sender.offer(&bytes_of(&[0x8000_0000])).unwrap();
    assert_eq!(begin(sender), refused(37));
}

/// From the first life to the last: a table, then one that is cut short, then its rows anew.
#[test]
fn tables_over_lives() {
    let (mut controller, mut memory) = (Controller::fresh(), [0; 256]);
    for (life, cut) in [(1, false), (2, true), (3, false)] {
        let answer = controller.serve(&mut memory, &Sender::discovery()).unwrap();
        let sender = Sender::discovered(answer).unwrap();
        let set_up = SetUp::new(0x40, 240).unwrap();
        let mut attempt = Attempt::begin(set_up, [[life; 7]; 24], sender).unwrap();
        while let Some(message) = attempt.message() {
            let answer = controller.serve(&mut memory, message).unwrap();
            attempt.take(answer).unwrap();
            if cut {
                break;
            }
        }
        if cut {
            assert_eq!((attempt.state(), memory[17], memory[208]), (State::Waits, 1, 0));
        } else {
            assert_eq!((attempt.state(), attempt.message()), (State::Done, None));
            assert_eq!((memory[200], memory[201], memory[207], memory[208]), (24, life, life, 24));
            assert_eq!(attempt.take(&[]), refused(30));
        }
    }
}

#[test]
fn an_attempt_ends() {
    let mut attempt = begin(Sender::fresh()).unwrap();
    assert_eq!(attempt.take(&bytes_of(&[0x8000_0230])), Ok(State::Ended(25)));
    assert_eq!((attempt.state(), attempt.message()), (State::Ended(25), None));
    let mut attempt = begin(Sender::fresh()).unwrap();
    attempt.take(&bytes_of(&[0x8000_0030])).unwrap();
    let third_fails = bytes_of(&[0x0000_0031, 0x0000_0031, 0x8000_0131]);
    assert_eq!(attempt.take(&third_fails), Ok(State::Ended(3)));
    assert_eq!(attempt.take(&third_fails), refused(30));
}
