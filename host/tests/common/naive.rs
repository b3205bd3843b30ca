//! Document 01 and the requests that have landed once more, slowly: lists and numbers, one sentence
//! after the other, sharing nothing with the implementation but the limit and the records that go in
//! and out. Here the requests and the controller; `naive_sender` has the sender.

use charkhavo_host::limits::WORDS;
use charkhavo_host::plain::TagRecord;
use charkhavo_host::random::controller::Lent;

pub struct Command {
    pub byte1: u32,
    pub count: usize,
    pub address: u64,
    pub data: Vec<u32>,
}

pub struct Request {
    pub byte0: u32,
    pub commands: Vec<Command>,
}

/// A refusal: its number, and the index of the header word being looked at.
pub type Wrong = (u32, usize);

pub fn bits(word: u32, high: u32, low: u32) -> u32 {
    ((u64::from(word) >> low) % (1 << (high - low + 1))) as u32
}

pub fn words_in(bytes: &[u8]) -> Vec<u32> {
    let word = |at: usize| (0..4).map(|i| u32::from(bytes[4 * at + i]) << (8 * i)).sum();
    (0..bytes.len() / 4).map(word).collect()
}

/// The walk: refusals 2 to 10.
pub fn read(bytes: &[u8]) -> Result<Request, Wrong> {
    if bytes.is_empty() || !bytes.len().is_multiple_of(4) || bytes.len() > 4 * WORDS {
        return Err((2, 0));
    }
    let words = words_in(bytes);
    let byte0 = bits(words[0], 7, 0);
    let commands = read_commands(byte0, 0, &words)?;
    let answer: usize = commands.iter().map(|command| 1 + ok_count(byte0, command)).sum();
    if answer > WORDS {
        Err((10, 0))
    } else {
        Ok(Request { byte0, commands })
    }
}

pub fn ok_count(byte0: u32, command: &Command) -> usize {
    if bits(byte0, 5, 4) == 1 {
        0
    } else {
        command.count
    }
}

/// The commands from word `at` on, `words` being that word and all behind it.
fn read_commands(byte0: u32, at: usize, words: &[u32]) -> Result<Vec<Command>, Wrong> {
    let Some(header) = words.first().copied() else { return Err((3, at)) };
    let (kind, count) = (bits(header, 5, 4), bits(header, 27, 16) as usize);
    let (first, last) = (bits(header, 11, 8), bits(header, 15, 12));
    if bits(header, 7, 0) != byte0 {
        return Err((4, at));
    }
    if kind == 3 {
        return Err((5, at));
    }
    if bits(header, 30, 28) != 0 {
        return Err((6, at));
    }
    if (kind == 0 && count > 2) || (kind != 0 && count == 0) {
        return Err((7, at));
    }
    let place = 1 + if kind == 0 { 0 } else { 1 + bits(header, 6, 6) as usize };
    if words.len() < place {
        return Err((3, at));
    }
    let address =
        words[1..place].iter().rev().fold(0, |high, word| (high << 32) + u64::from(*word));
    if kind == 1 && !enables_allowed(count, address, first, last) {
        return Err((8, at));
    }
    let data = if kind == 2 { 0 } else { count };
    if words.len() < place + data {
        return Err((3, at));
    }
    let rest = &words[place + data..];
    let command = Command {
        byte1: bits(header, 15, 8),
        count,
        address,
        data: words[place..place + data].to_vec(),
    };
    if bits(header, 31, 31) == 1 {
        return if rest.is_empty() { Ok(vec![command]) } else { Err((9, at)) };
    }
    let mut commands = read_commands(byte0, at + place + data, rest)?;
    commands.insert(0, command);
    Ok(commands)
}

/// Byte enables of a write of some words.
pub fn enables_allowed(count: usize, address: u64, first: u32, last: u32) -> bool {
    let zeros = if count == 1 { last == 0 } else { first != 0 && last != 0 };
    let gaps = count == 1 || (count == 2 && address.is_multiple_of(8));
    zeros && (gaps || ([15, 14, 12, 8].contains(&first) && [15, 7, 3, 1].contains(&last)))
}

/// Carries a request out upon memory; gives the answer's words.
pub fn carried(request: &Request, memory: &mut [u32], tags: &TagRecord) -> Vec<u32> {
    let mut bytes: Vec<u8> = memory.iter().flat_map(|word| word.to_le_bytes()).collect();
    let mut answer = Vec::new();
    let byte0 = request.byte0 | 0x30;
    for (k, command) in request.commands.iter().enumerate() {
        let data = carried_command(request.byte0, command, &mut bytes, tags);
        let last = k + 1 == request.commands.len() || data.is_none();
        let status = if data.is_none() { 2 } else { 0 };
        let data = data.unwrap_or_default();
        answer.push(byte0 + (status << 8) + ((data.len() as u32) << 16) + (u32::from(last) << 31));
        answer.extend(data);
        if status != 0 {
            break;
        }
    }
    memory.copy_from_slice(&words_in(&bytes));
    answer
}

/// The data of the command's answer; none for an Error.
fn carried_command(
    byte0: u32,
    command: &Command,
    memory: &mut [u8],
    tags: &TagRecord,
) -> Option<Vec<u32>> {
    if bits(byte0, 5, 4) == 0 {
        let stored = if tags.held == 0 { 0 } else { tags.tag + 16 };
        return Some([4 * WORDS as u32, stored][..command.count].to_vec());
    }
    let end = u128::from(command.address) + 4 * command.count as u128;
    if !command.address.is_multiple_of(4) || end > memory.len() as u128 {
        return None;
    }
    let range = &mut memory[command.address as usize..end as usize];
    if bits(byte0, 5, 4) == 2 {
        return Some(words_in(range));
    }
    for (place, byte) in range.iter_mut().enumerate() {
        let word = place / 4;
        let enables = match word {
            0 => bits(command.byte1, 3, 0),
            _ if word + 1 == command.count => bits(command.byte1, 7, 4),
            _ => 15,
        };
        if enables >> (place % 4) & 1 == 1 {
            *byte = (command.data[word] >> (8 * (place % 4))) as u8;
        }
    }
    Some(Vec::new())
}

/// The tags that a record holds, the newest first.
fn held(tags: &TagRecord) -> Vec<u32> {
    (0..tags.held).map(|back| (tags.tag + 16 - back) % 16).collect()
}

fn record_allowed(tags: &TagRecord) -> bool {
    if tags.held == 0 {
        return true;
    }
    if tags.held > 4 || tags.tag > 15 {
        return false;
    }
    let length = |words: u32| words > 0 && words as usize <= WORDS;
    let both = |tag: u32| {
        let place = tag as usize % 4;
        length(tags.words[place]) && length(tags.request[place])
    };
    held(tags).into_iter().all(both)
}

/// The controller's call: refusal and length sent, everything lent as it is then.
pub fn serve(lent: &mut Lent) -> (Wrong, usize) {
    let Lent { memory, stored, kept, output, tags, datagram } = lent;
    let lengths = !memory.is_empty()
        && memory.len() <= 16_384
        && stored.len() >= 4 * WORDS
        && kept.len() >= 16 * WORDS
        && output.len() >= 4 * WORDS;
    if !lengths || !record_allowed(tags) {
        return ((1, 0), 0);
    }
    let request = match read(datagram) {
        Ok(request) => request,
        Err(refusal) => return (refusal, 0),
    };
    let (tag, discovery) = (bits(request.byte0, 3, 0), bits(request.byte0, 7, 7) == 1);
    let held = held(tags);
    let repeat = !discovery && held.contains(&tag);
    let new = !discovery && tag == held.first().map_or(0, |newest| (newest + 1) % 16);
    if !discovery && !repeat && !new {
        return ((11, 0), 0);
    }
    let place = tag as usize % 4;
    let kept = &mut kept[4 * WORDS * place..];
    if repeat && !kept.iter().take(4 * tags.request[place] as usize).eq(datagram.iter()) {
        return ((12, 0), 0);
    }
    let stored = &mut stored[WORDS * place..];
    let answer = match repeat {
        true => stored[..tags.words[place] as usize].to_vec(),
        false => carried(&request, memory, tags),
    };
    if new {
        stored[..answer.len()].copy_from_slice(&answer);
        kept[..datagram.len()].copy_from_slice(datagram);
        tags.held = 4.min(held.len() as u32 + 1);
        tags.tag = tag;
        tags.words[place] = answer.len() as u32;
        tags.request[place] = datagram.len() as u32 / 4;
    }
    let sent: Vec<u8> = answer.iter().flat_map(|word| word.to_le_bytes()).collect();
    output[..sent.len()].copy_from_slice(&sent);
    ((0, 0), sent.len())
}
