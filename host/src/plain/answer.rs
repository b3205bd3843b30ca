//! The answer's shape as the loader judges it against its request: refusals 32 to 35.

use super::message::{commands, words_of, Header, Kind, Walked};
use crate::refusal::Refusal;
use std::ops::Range;

/// What an answer says of one command.
#[derive(Clone, Debug, PartialEq, Eq)]
pub struct Answered {
    /// What the command was.
    pub kind: Kind,
    /// 0 OK, 1 Timeout, 2 Error.
    pub status: u32,
    /// The bytes of the answer that hold its data words.
    pub data: Range<usize>,
}

/// Judges an answer to a well-formed request, handing each answered command, in order, to
/// `see`. What was seen counts only if nothing is refused.
pub fn judge(
    request: &Walked,
    answer: &[u8],
    mut see: impl FnMut(Answered),
) -> Result<(), Refusal> {
    let words = words_of(answer, Refusal::ANSWER_LENGTH)?;
    let byte0 = request.first.answer_byte0();
    if Header(u32::from_le_bytes(words[0])).byte0() != byte0 {
        return Err(Refusal::ANSWER_BYTE_0);
    }
    let mut at = 0;
    for command in commands(request) {
        let word = words.get(at).ok_or(Refusal::ANSWER_END.at_word(at))?;
        let header = Header(u32::from_le_bytes(*word));
        if !header_allowed(header, byte0, command.header) {
            return Err(Refusal::ANSWER_HEADER.at_word(at));
        }
        let body = at + 1;
        let next = body + header.count();
        let ends = command.header.is_last() || header.status() != 0;
        if next > words.len() || header.is_last() != ends || (ends && next != words.len()) {
            return Err(Refusal::ANSWER_END.at_word(at));
        }
        see(Answered {
            kind: command.header.kind(),
            status: header.status(),
            data: 4 * body..4 * next,
        });
        if ends {
            break;
        }
        at = next;
    }
    Ok(())
}

/// What 34 asks of one answer header: `byte0` as all have it, nothing set that must be 0, a
/// status that there is, and the count that belongs to it.
fn header_allowed(header: Header, byte0: u32, asked: Header) -> bool {
    let count = if header.status() == 0 { asked.answer_count() } else { 0 };
    header.byte0() == byte0
        && !header.has_reserved()
        && header.last_enables() == 0
        && header.status() <= 2
        && header.count() == count
}
