//! The outcome of a message: status and read data of each answered command. No sender record
//! is looked at, so these serve after the answer was accepted too. Where 31 (its tag clause
//! aside) to 35 would refuse, no command counts as answered.

use super::answer::{judge, Answered};
use super::message::Kind;
use super::sender::sendable;
use std::ops::Range;

/// How many commands the answer answers.
pub fn count(request: &[u8], answer: &[u8]) -> usize {
    let mut seen = 0;
    if see_all(request, answer, |_| seen += 1) {
        seen
    } else {
        0
    }
}

/// The status of command `k`, counted from 0; none if it is absent.
pub fn status(request: &[u8], answer: &[u8], k: usize) -> Option<u32> {
    answered(request, answer, k).map(|answered| answered.status)
}

/// Where in the answer's bytes the read data of command `k` stands. Empty, at 0, if that
/// command is absent or not an OK read.
pub fn read_data(request: &[u8], answer: &[u8], k: usize) -> Range<usize> {
    match answered(request, answer, k) {
        Some(Answered { kind: Kind::Read, status: 0, data }) => data,
        _ => 0..0,
    }
}

fn answered(request: &[u8], answer: &[u8], k: usize) -> Option<Answered> {
    let (mut found, mut at) = (None, 0);
    let right = see_all(request, answer, |answered| {
        if at == k {
            found = Some(answered);
        }
        at += 1;
    });
    if right {
        found
    } else {
        None
    }
}

/// Judges the whole answer; false where anything is refused.
fn see_all(request: &[u8], answer: &[u8], see: impl FnMut(Answered)) -> bool {
    match sendable(request) {
        Ok(request) => judge(&request, answer, see).is_ok(),
        Err(_) => false,
    }
}
