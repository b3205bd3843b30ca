//! What answers make of an attempt at the training table, by hand: going on, done, and each end.

use super::table::{rows, waits, words, READS, WRITES};
use crate::common::{at, bytes_of, of, Ends};
use crate::Ours;
use charkhavo_host::plain::table::Attempt;
use charkhavo_host::plain::Sender;
use charkhavo_host::Refusal;

/// The answer to a stage's message, tag 5, with all commands OK.
fn all_ok(stage: u8) -> Vec<u32> {
    match stage {
        1 => [vec![0x0000_0035; 23], vec![0x8000_0035]].concat(),
        2 => (1..=24).flat_map(came).collect(),
        _ => vec![0x8000_0035],
    }
}

/// The answer to the read of row r: its header, and the words that were written.
fn came(r: usize) -> Vec<u32> {
    [&[READS[r - 1][0] | 0x10], &WRITES[r - 1][2..]].concat()
}

/// The same up to a row that fails with this status.
fn fails(stage: u8, r: usize, status: u32) -> Vec<u32> {
    let words = if stage == 2 { 9 } else { 1 };
    [&all_ok(stage)[..words * (r - 1)], &[0x8000_0035 | status << 8]].concat()
}

/// What an answer to a stage's message comes to.
fn taken(stage: u8, answer: &[u32]) -> (Refusal, Attempt) {
    Ours::table_take(waits(stage), &bytes_of(&words(stage)), &bytes_of(answer), &rows())
}

/// An attempt after an answer to the message of tag 5.
fn then(stage: u8, row: u8) -> (Refusal, Attempt) {
    (of(0), Attempt { sender: Sender::idle(6), stage, row })
}

#[test]
fn all_ok_goes_on() {
    assert_eq!(
        [0, 1, 2, 3].map(|stage| taken(stage, &all_ok(stage))),
        [1, 2, 3, 4].map(|s| then(s, 0))
    );
}

#[test]
fn a_failed_command_ends_it_with_the_rows_number() {
    for status in [1, 2] {
        assert_eq!(taken(0, &fails(0, 1, status)), then(5, 25), "clearing");
        assert_eq!(taken(3, &fails(3, 1, status)), then(5, 25), "setting");
        for r in 1..=24 {
            assert_eq!(taken(1, &fails(1, r, status)), then(5, r as u8), "written");
            assert_eq!(taken(2, &fails(2, r, status)), then(5, r as u8), "read");
        }
    }
}

#[test]
fn a_row_that_differs_in_any_word_ends_it() {
    for r in 1..=24 {
        for word in 0..8 {
            for bit in [0, 13, 31] {
                let mut answer = all_ok(2);
                answer[9 * (r - 1) + 1 + word] ^= 1 << bit;
                assert_eq!(taken(2, &answer), then(5, r as u8), "word {word} of row {r}");
            }
        }
    }
}

#[test]
fn the_lowest_row_first() {
    let mut answer = all_ok(2);
    answer[9 * 8 + 4] ^= 1;
    answer[9 * 4 + 8] ^= 1;
    assert_eq!(taken(2, &answer), then(5, 5), "rows 5 and 9 differ");
    let mut answer = fails(2, 7, 2);
    answer[9 * 2 + 3] ^= 1;
    assert_eq!(taken(2, &answer), then(5, 3), "row 3 differs, row 7 fails");
}

#[test]
fn rows_that_come_in_each_others_place_differ() {
    let mut answer = all_ok(2);
    let (front, behind) = answer.split_at_mut(9);
    front[1..].swap_with_slice(&mut behind[1..9]);
    assert_eq!(taken(2, &answer), then(5, 1));
}

#[test]
fn done_and_ended_stay_so() {
    let (message, answer) = (bytes_of(&words(0)), bytes_of(&all_ok(0)));
    let take = |stage, row| {
        let attempt = Attempt { stage, row, ..waits(0) };
        Ours::table_take(attempt, &message, &answer, &rows())
    };
    assert_eq!([take(4, 0), take(4, 7)], [then(4, 0); 2]);
    assert_eq!([take(5, 7), take(6, 0), take(255, 200)], [then(5, 7), then(5, 0), then(5, 200)]);
}

/// An attempt that says more than is looked at: marks of messages that do not wait, and a row.
fn odd_waits(next: u8, waiting: u8) -> Attempt {
    Attempt { sender: Sender { next, waiting, answered: [true; 3] }, stage: 2, row: 77 }
}

#[test]
fn a_refused_answer_leaves_the_attempt() {
    let (message, answer) = (bytes_of(&words(2)), bytes_of(&all_ok(2)));
    let take = |attempt: Attempt, message: &[u8], answer: &[u8]| {
        let (refusal, left) = Ours::table_take(attempt, message, answer, &rows());
        assert!(refusal == of(0) || left == attempt, "all seven bytes: {left:?}");
        refusal
    };
    let odd = odd_waits(5, 1);
    assert_eq!(take(odd_waits(16, 1), &message, &answer), of(37));
    assert_eq!(take(odd_waits(5, 5), &message, &answer), of(37));
    assert_eq!(take(odd_waits(5, 0), &message, &answer), of(30));
    assert_eq!(take(odd, &bytes_of(&[0x8001_0F16, 0x340, 0]), &answer), of(31), "another tag");
    assert_eq!(take(odd, &message[..184], &answer), at(31, 46));
    assert_eq!(take(odd, &message, &[]), of(32), "none came in time");
    assert_eq!(take(odd, &message, &bytes_of(&[0x8000_0036])), of(33));
    assert_eq!(take(odd, &message, &bytes_of(&[0x8000_0335])), of(34));
    assert_eq!(take(odd, &message, &answer[..860]), at(35, 207));
    assert_eq!(take(odd, &message, &answer), of(0));
}
