//! The training table by the slow second reading: messages are lists of words, made whole, and each
//! row is asked for by itself.

use super::naive::{words_in, Wrong};
use super::naive_ends::told;
use super::naive_sender;
use charkhavo_host::limits::{Rows, WORDS};
use charkhavo_host::plain::table::Attempt;
use charkhavo_host::random::bytes_of;

pub fn set_up(start: u64, room: u64) -> Result<(), Wrong> {
    let fits = room.checked_mul(4).and_then(|bytes| bytes.checked_add(start));
    match fits {
        Some(end) if end <= 0x1_0000_0000 && room >= 193 && start.is_multiple_of(4) => Ok(()),
        _ => Err((40, 0)),
    }
}

/// Row r of 1 to 24, all eight words.
fn row(rows: &Rows, r: usize) -> Vec<u32> {
    [&[r as u32], &rows[r - 1][..]].concat()
}

/// The message of a stage, and the attempt at which it waits.
pub fn message(
    room_out: usize,
    before: Attempt,
    start: u64,
    room: u64,
    rows: &Rows,
) -> Result<(Vec<u8>, Attempt), Wrong> {
    set_up(start, room)?;
    let tag = u32::from(before.sender.next);
    if tag > 15 || before.sender.waiting > 4 {
        return Err((37, 0));
    }
    if before.sender.waiting > 0 {
        return Err((36, 0));
    }
    let at = |r: usize| start as u32 + 32 * (r as u32 - 1);
    let mark = |value| vec![vec![0x0001_0F10 | tag, at(25), value]];
    let write = |r| [&[0x0008_FF10 | tag, at(r)], &row(rows, r)[..]].concat();
    let mut commands: Vec<Vec<u32>> = match before.stage {
        0 => mark(0),
        1 => (1..=24).map(write).collect(),
        2 => (1..=24).map(|r| vec![0x0008_0020 | tag, at(r)]).collect(),
        3 => mark(24),
        _ => return Err((30, 0)),
    };
    if room_out < 4 * WORDS {
        return Err((21, 0));
    }
    commands.last_mut().expect("a command")[0] |= 0x8000_0000;
    let message = bytes_of(&commands.concat());
    let sender = naive_sender::offer(before.sender, &message)?;
    Ok((message, Attempt { sender, row: 0, ..before }))
}

pub fn take(before: Attempt, message: &[u8], answer: &[u8], rows: &Rows) -> Result<Attempt, Wrong> {
    let (sender, _) = naive_sender::take(before.sender, message, answer)?;
    let told = told(message, answer);
    let reads = message[0] >> 4 & 3 == 2;
    let ok = |r: usize| told.get(r - 1).is_some_and(|(status, _, _)| *status == 0);
    let came = |r: usize| {
        let (_, start, end) = told[r - 1];
        if reads {
            words_in(&answer[start..end])
        } else {
            Vec::new()
        }
    };
    let failed = match before.stage {
        0 | 3 => (!ok(1)).then_some(25),
        1 => (1..=24).find(|r| !ok(*r)),
        2 => (1..=24).find(|r| !ok(*r) || came(*r) != row(rows, *r)),
        4 => return Ok(Attempt { sender, stage: 4, row: 0 }),
        _ => return Ok(Attempt { sender, stage: 5, row: before.row }),
    };
    Ok(match failed {
        None => Attempt { sender, stage: before.stage + 1, row: 0 },
        Some(r) => Attempt { sender, stage: 5, row: r as u8 },
    })
}
