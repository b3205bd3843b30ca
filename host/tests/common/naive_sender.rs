//! The sender and answers by the slow second reading: what waits is a list.

use super::naive::{bits, ok_count, read, words_in, Request, Wrong};
use charkhavo_host::limits::WORDS;
use charkhavo_host::plain::Sender;

/// Status and data place, in bytes, of each answered command: 32 to 35.
pub fn judge(request: &Request, answer: &[u8]) -> Result<Vec<(u32, usize, usize)>, Wrong> {
    if answer.is_empty() || !answer.len().is_multiple_of(4) || answer.len() > 4 * WORDS {
        return Err((32, 0));
    }
    let words = words_in(answer);
    if bits(words[0], 7, 0) != request.byte0 | 0x30 {
        return Err((33, 0));
    }
    let (mut outcome, mut at) = (Vec::new(), 0);
    for (k, command) in request.commands.iter().enumerate() {
        let Some(header) = words.get(at).copied() else { return Err((35, at)) };
        let (status, count) = (bits(header, 11, 8), bits(header, 27, 16) as usize);
        let right = if status == 0 { ok_count(request.byte0, command) } else { 0 };
        if bits(header, 7, 0) != request.byte0 | 0x30
            || bits(header, 30, 28) != 0
            || bits(header, 15, 12) != 0
            || status >= 3
            || count != right
        {
            return Err((34, at));
        }
        outcome.push((status, 4 * (at + 1), 4 * (at + 1 + count)));
        let end = at + 1 + count;
        let belongs = k + 1 == request.commands.len() || status != 0;
        if end > words.len() || (bits(header, 31, 31) == 1) != belongs {
            return Err((35, at));
        }
        if belongs {
            return if end == words.len() { Ok(outcome) } else { Err((35, at)) };
        }
        at = end;
    }
    unreachable!("LAST belongs on the last command's header")
}

/// 31, with the tag clause if tags are given.
pub fn sendable(bytes: &[u8], tags: Option<&[u32]>) -> Result<Request, Wrong> {
    let request = read(bytes).map_err(|(_, at)| (31, at))?;
    let tagged = tags.is_none_or(|tags| tags.contains(&bits(request.byte0, 3, 0)));
    if bits(request.byte0, 7, 7) == 1 || !tagged {
        Err((31, 0))
    } else {
        Ok(request)
    }
}

/// The messages that wait, the oldest first: the tag of each, and whether it is answered.
fn waiting(sender: Sender) -> Result<Vec<(u32, bool)>, Wrong> {
    if sender.next > 15 || sender.waiting > 4 {
        return Err((37, 0));
    }
    let [second, third, fourth] = sender.answered;
    let answered = [false, second, third, fourth];
    let tags = (0..16).map(|k| (u32::from(sender.next) + k) % 16);
    Ok(tags.zip(answered).take(sender.waiting.into()).collect())
}

/// The record of some that wait; where none does, of the tag to offer.
fn record(waiting: &[(u32, bool)], otherwise: u32) -> Sender {
    let next = waiting.first().map_or(otherwise, |(tag, _)| *tag);
    let answered = |k: usize| waiting.get(k).is_some_and(|(_, answered)| *answered);
    Sender {
        next: next as u8,
        waiting: waiting.len() as u8,
        answered: [answered(1), answered(2), answered(3)],
    }
}

pub fn offer(sender: Sender, request: &[u8]) -> Result<Sender, Wrong> {
    let mut waiting = waiting(sender)?;
    if waiting.len() == 4 {
        return Err((36, 0));
    }
    let tag = waiting.last().map_or(u32::from(sender.next), |(newest, _)| (newest + 1) % 16);
    sendable(request, Some(&[tag]))?;
    waiting.push((tag, false));
    Ok(record(&waiting, tag))
}

pub fn send(sender: Sender, request: &[u8]) -> Result<Request, Wrong> {
    let waiting = waiting(sender)?;
    if waiting.is_empty() {
        return Err((30, 0));
    }
    let unanswered = waiting.iter().filter(|(_, answered)| !answered).map(|(tag, _)| *tag);
    sendable(request, Some(&unanswered.collect::<Vec<u32>>()))
}

pub fn take(sender: Sender, request: &[u8], answer: &[u8]) -> Result<(Sender, u8), Wrong> {
    let request = send(sender, request)?;
    judge(&request, answer)?;
    let mut waiting = waiting(sender)?;
    let mut ended = 0;
    let newest = waiting[waiting.len() - 1].0;
    for (tag, answered) in &mut waiting {
        *answered |= *tag == bits(request.byte0, 3, 0);
    }
    while waiting.first().is_some_and(|(_, answered)| *answered) {
        waiting.remove(0);
        ended += 1;
    }
    Ok((record(&waiting, (newest + 1) % 16), ended))
}

/// The next tag that an answer to the fixed discovery tells.
pub fn discovered(answer: &[u8]) -> Result<u8, Wrong> {
    let discovery = [0x8002_0080, 4 * WORDS as u32, 0];
    let bytes: Vec<u8> = discovery.iter().flat_map(|word| word.to_le_bytes()).collect();
    let outcome = judge(&read(&bytes)?, answer)?;
    if outcome[0].0 != 0 {
        return Err((38, 0));
    }
    let word = words_in(answer)[2];
    if bits(word, 31, 5) != 0 || (bits(word, 4, 4) == 0 && bits(word, 3, 0) != 0) {
        return Err((38, 0));
    }
    Ok(if bits(word, 4, 4) == 1 { (bits(word, 3, 0) as u8 + 1) % 16 } else { 0 })
}
