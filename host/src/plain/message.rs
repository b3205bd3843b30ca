//! The message rules: header fields, the walk over a request with refusals 2 to 10, and the
//! commands of a well-formed one. Both ends stand on these.

use crate::limits::WORDS;
use crate::refusal::Refusal;

/// The greatest count of a write or read: what 12 bits hold.
pub const GREATEST_COUNT: usize = 4095;
/// The greatest count of a NOP (house).
pub const GREATEST_NOP_COUNT: usize = 2;

/// A word as it stands in a datagram, little-endian.
pub type WordBytes = [u8; 4];

/// What a header asks for; every header of a message says the same.
#[derive(Clone, Copy, Debug, PartialEq, Eq)]
pub enum Kind {
    Nop,
    Write,
    Read,
    Response,
}

/// A header word and its fields.
#[derive(Clone, Copy, Debug, PartialEq, Eq)]
pub struct Header(pub u32);

impl Header {
    pub const LAST: u32 = 1 << 31;
    const RESERVED: u32 = 7 << 28;
    const RESPONSE: u32 = 3 << 4;

    pub fn new(byte0: u32, byte1: u32, count: usize) -> Header {
        Header(byte0 | byte1 << 8 | (count as u32) << 16)
    }

    /// Byte 0 of a request.
    pub fn byte0_of(kind: u32, tag: u32, wide: bool, discovery: bool) -> u32 {
        tag | kind << 4 | u32::from(wide) << 6 | u32::from(discovery) << 7
    }

    pub fn byte0(self) -> u32 {
        self.0 & 0xFF
    }

    /// Byte 0 with the kind made 3, as the answer has it.
    pub fn answer_byte0(self) -> u32 {
        self.byte0() | Header::RESPONSE
    }

    pub fn tag(self) -> u32 {
        self.0 & 0xF
    }

    pub fn kind(self) -> Kind {
        match self.0 >> 4 & 3 {
            0 => Kind::Nop,
            1 => Kind::Write,
            2 => Kind::Read,
            _ => Kind::Response,
        }
    }

    /// Whether an address takes two words.
    pub fn wide(self) -> bool {
        self.0 >> 6 & 1 == 1
    }

    pub fn discovery(self) -> bool {
        self.0 >> 7 & 1 == 1
    }

    /// A request's first byte enables.
    pub fn first_enables(self) -> u32 {
        self.0 >> 8 & 0xF
    }

    /// A request's last byte enables.
    pub fn last_enables(self) -> u32 {
        self.0 >> 12 & 0xF
    }

    /// An answer's status, in the place of the first enables.
    pub fn status(self) -> u32 {
        self.first_enables()
    }

    pub fn count(self) -> usize {
        (self.0 >> 16 & 0xFFF) as usize
    }

    pub fn has_reserved(self) -> bool {
        self.0 & Header::RESERVED != 0
    }

    pub fn is_last(self) -> bool {
        self.0 & Header::LAST != 0
    }

    /// Words of an address in this message; NOPs have none, whatever bit 6 says.
    pub fn address_words(self) -> usize {
        match self.kind() {
            Kind::Nop | Kind::Response => 0,
            Kind::Write | Kind::Read => 1 + usize::from(self.wide()),
        }
    }

    /// Words that the command takes in its request.
    pub fn request_words(self) -> usize {
        let data = if self.kind() == Kind::Read { 0 } else { self.count() };
        1 + self.address_words() + data
    }

    /// Count of the command's answer if it is OK.
    pub fn answer_count(self) -> usize {
        if self.kind() == Kind::Write {
            0
        } else {
            self.count()
        }
    }
}

/// The words of a datagram, or the refusal given where its length is not allowed.
pub fn words_of(datagram: &[u8], otherwise: Refusal) -> Result<&[WordBytes], Refusal> {
    let (words, rest) = datagram.as_chunks();
    if words.is_empty() || !rest.is_empty() || words.len() > WORDS {
        return Err(otherwise);
    }
    Ok(words)
}

/// What the walk finds out about a well-formed request.
#[derive(Clone, Copy, Debug)]
pub struct Walked<'a> {
    pub words: &'a [WordBytes],
    /// The first header; in byte 0 all others are like it.
    pub first: Header,
    /// Words of the answer with all commands OK.
    pub answer: usize,
}

/// Walks a request from end to end: refusals 2 to 10 in document 01's order.
#[inline(always)]
pub fn walk(datagram: &[u8]) -> Result<Walked<'_>, Refusal> {
    let words = words_of(datagram, Refusal::LENGTH)?;
    let first = Header(u32::from_le_bytes(words[0]));
    let fixed = 1 + first.address_words();
    let answer = match first.kind() {
        Kind::Nop => walk_commands(words, first, |header, _| nop_size(header)),
        Kind::Write => {
            walk_commands(words, first, |header, at| write_size(header, fixed, words, at))
        }
        Kind::Read => walk_commands(words, first, |header, _| read_size(header, fixed)),
        Kind::Response => Err(Refusal::KIND),
    }?;
    if answer > WORDS {
        return Err(Refusal::LONG_ANSWER);
    }
    Ok(Walked { words, first, answer })
}

/// Words that a command takes in its request, and in its answer if it is OK.
struct Size {
    request: usize,
    answer: usize,
}

/// The walk for one kind, whose `size`, given a header and its place, gives 7, 8 and the 3
/// between them; returns the words of the all-OK answer. A refusal is at the header looked at.
#[inline(always)]
fn walk_commands(
    words: &[WordBytes],
    first: Header,
    size: impl Fn(Header, usize) -> Result<Size, Refusal>,
) -> Result<usize, Refusal> {
    let (mut at, mut answer) = (0, 0);
    loop {
        let word = words.get(at).ok_or(Refusal::PAST_END.at_word(at))?;
        let header = Header(u32::from_le_bytes(*word));
        if header.byte0() != first.byte0() {
            return Err(Refusal::BYTE_0.at_word(at));
        }
        if header.has_reserved() {
            return Err(Refusal::RESERVED.at_word(at));
        }
        let size = size(header, at).map_err(|refusal| refusal.at_word(at))?;
        let next = at + size.request;
        if next > words.len() {
            return Err(Refusal::PAST_END.at_word(at));
        }
        answer += size.answer;
        if header.is_last() {
            let ends = next == words.len();
            return if ends { Ok(answer) } else { Err(Refusal::AFTER_LAST.at_word(at)) };
        }
        at = next;
    }
}

fn nop_size(header: Header) -> Result<Size, Refusal> {
    let words = 1 + header.count();
    match header.count() {
        0..=GREATEST_NOP_COUNT => Ok(Size { request: words, answer: words }),
        _ => Err(Refusal::COUNT),
    }
}

/// `fixed` is the header and the address.
fn read_size(header: Header, fixed: usize) -> Result<Size, Refusal> {
    match header.count() {
        0 => Err(Refusal::COUNT),
        count => Ok(Size { request: fixed, answer: 1 + count }),
    }
}

/// A write of one word has an arm of its own: where the next header stands is then known
/// before this one has been loaded, which lets the processor run ahead.
#[inline(always)]
fn write_size(
    header: Header,
    fixed: usize,
    words: &[WordBytes],
    at: usize,
) -> Result<Size, Refusal> {
    match header.count() {
        0 => Err(Refusal::COUNT),
        1 if header.last_enables() == 0 => Ok(Size { request: fixed + 1, answer: 1 }),
        count => {
            check_enables(header, words.get(at + 1..at + fixed))?;
            Ok(Size { request: fixed + count, answer: 1 })
        }
    }
}

/// 8, and before it 3 where the address is not there. Its low word is enough: it tells a
/// multiple of 8.
fn check_enables(header: Header, address: Option<&[WordBytes]>) -> Result<(), Refusal> {
    let low = u32::from_le_bytes(address.ok_or(Refusal::PAST_END)?[0]);
    let (first, last) = (header.first_enables(), header.last_enables());
    if enables_allowed(header.count(), low.into(), first, last) {
        Ok(())
    } else {
        Err(Refusal::ENABLES)
    }
}

/// The rule for the byte enables of a write of at least one word: gaps inside them are allowed
/// for one word, and for two at a multiple of 8.
pub fn enables_allowed(count: usize, address: u64, first: u32, last: u32) -> bool {
    match count {
        1 => last == 0,
        2 if address.is_multiple_of(8) => first != 0 && last != 0,
        _ => matches!(first, 0xF | 0xE | 0xC | 0x8) && matches!(last, 0xF | 0x7 | 0x3 | 0x1),
    }
}

/// One command of a well-formed request.
#[derive(Clone, Copy, Debug)]
pub struct Command<'a> {
    pub header: Header,
    /// Where the header stands, in words from the start.
    pub place: usize,
    /// 0 for a NOP.
    pub address: u64,
    /// What a write or a NOP carries.
    pub data: &'a [WordBytes],
}

/// The commands of a request that the walk has let by.
pub fn commands<'a>(walked: &Walked<'a>) -> impl Iterator<Item = Command<'a>> {
    let words = walked.words;
    let mut at = 0;
    std::iter::from_fn(move || {
        let header = Header(u32::from_le_bytes(*words.get(at)?));
        let place = at;
        at += header.request_words();
        let (address, data) = words[place + 1..at].split_at(header.address_words());
        Some(Command { header, place, address: address_of(address), data })
    })
}

/// An address of no, one or two words, low word first.
fn address_of(words: &[WordBytes]) -> u64 {
    words.iter().rev().fold(0, |high, low| high << 32 | u64::from(u32::from_le_bytes(*low)))
}
