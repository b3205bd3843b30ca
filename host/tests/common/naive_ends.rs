//! The slow second reading of the rules as ends.

use super::ends::{Ends, Given, ABSENT};
use super::naive::{self, Wrong};
use super::naive_building::{added, refused_21, Sequences};
use super::naive_sender;
use super::naive_table;
use charkhavo_host::limits::{Rows, WORDS};
use charkhavo_host::plain::table::Attempt;
use charkhavo_host::plain::{Addition, Building, Sender, TagRecord};
use charkhavo_host::random::bytes_of;
use charkhavo_host::random::controller::Lent;
use charkhavo_host::Refusal;
use std::sync::LazyLock;

pub struct Naive;

/// Made once: it takes a while.
static SEQUENCES: LazyLock<Vec<Sequences>> = LazyLock::new(Sequences::all);

impl Ends for Naive {
    fn serve(
        memory: &mut [u32],
        stored: &mut [u32],
        kept: &mut [u8],
        output: &mut [u8],
        tags: &mut TagRecord,
        datagram: &[u8],
    ) -> Given<usize> {
        let mut lent = Lent {
            memory: memory.to_vec(),
            stored: stored.to_vec(),
            kept: kept.to_vec(),
            output: output.to_vec(),
            tags: *tags,
            datagram: datagram.to_vec(),
        };
        let (wrong, sent) = naive::serve(&mut lent);
        memory.copy_from_slice(&lent.memory);
        stored.copy_from_slice(&lent.stored);
        kept.copy_from_slice(&lent.kept);
        output.copy_from_slice(&lent.output);
        *tags = lent.tags;
        (refusal(wrong), sent)
    }

    fn refusal(request: &[u8]) -> Refusal {
        refusal(naive::read(request).err().unwrap_or_default())
    }

    fn begin(
        output: &[u8],
        building: Building,
        kind: u32,
        tag: u32,
        wide: bool,
        discovery: bool,
    ) -> Given<Building> {
        let begun = Building { kind, tag, wide, discovery, ..Building::EMPTY };
        match refused_21(&SEQUENCES, output, &begun) {
            true => (Refusal::of(21), building),
            false => (Refusal::of(0), begun),
        }
    }

    fn add(output: &mut [u8], building: Building, addition: Addition) -> Given<Building> {
        if refused_21(&SEQUENCES, output, &building) {
            return (Refusal::of(21), building);
        }
        if building.closed {
            return (Refusal::of(22), building);
        }
        let Addition { address, first, last, count, data } = addition;
        match added(&building, address, (first, last), count, data) {
            Ok(words) => (Refusal::of(0), grown(output, building, &words)),
            Err(number) => (Refusal::of(number), building),
        }
    }

    fn close(output: &mut [u8], building: Building) -> Given<Building> {
        if refused_21(&SEQUENCES, output, &building) {
            return (Refusal::of(21), building);
        }
        if building.closed || building.words == 0 {
            return (Refusal::of(22), building);
        }
        output[4 * building.last + 3] |= 0x80;
        (Refusal::of(0), Building { closed: true, ..building })
    }

    fn discovery() -> [u8; 12] {
        let [low, high, ..] = (4 * WORDS).to_le_bytes();
        [0x80, 0, 2, 0x80, low, high, 0, 0, 0, 0, 0, 0]
    }

    fn fresh() -> Sender {
        Sender { next: 0, waiting: 0, answered: [false; 3] }
    }

    fn discovered(answer: &[u8]) -> Given<Sender> {
        let sender = |next| Sender { next, waiting: 0, answered: [false; 3] };
        given(naive_sender::discovered(answer).map(sender), sender(16))
    }

    fn offer(before: Sender, request: &[u8]) -> Given<Sender> {
        given(naive_sender::offer(before, request), before)
    }

    fn send(sender: Sender, request: &[u8]) -> Given<usize> {
        match naive_sender::send(sender, request) {
            Ok(_) => (Refusal::of(0), request.len()),
            Err(wrong) => (refusal(wrong), 0),
        }
    }

    fn take(before: Sender, request: &[u8], answer: &[u8]) -> Given<(Sender, u8)> {
        given(naive_sender::take(before, request, answer), (before, 0))
    }

    fn count(request: &[u8], answer: &[u8]) -> usize {
        told(request, answer).len()
    }

    fn status(request: &[u8], answer: &[u8], k: usize) -> u32 {
        told(request, answer).get(k).map_or(ABSENT, |(status, _, _)| *status)
    }

    fn read_data(request: &[u8], answer: &[u8], k: usize) -> (usize, usize) {
        match told(request, answer).get(k) {
            Some((0, start, end)) if request[0] >> 4 & 3 == 2 => (*start, end - start),
            _ => (0, 0),
        }
    }

    fn set_up(start: u64, room: u64) -> Refusal {
        refusal(naive_table::set_up(start, room).err().unwrap_or_default())
    }

    fn attempt(sender: Sender) -> Attempt {
        let stopped = Sender { next: 16, waiting: 0, answered: [false; 3] };
        let sender = if sender.waiting == 0 { sender } else { stopped };
        Attempt { sender, stage: 0, row: 0 }
    }

    fn table_message(
        output: &mut [u8],
        before: Attempt,
        start: u64,
        room: u64,
        rows: &Rows,
    ) -> Given<(usize, Attempt)> {
        let made = naive_table::message(output.len(), before, start, room, rows);
        given(
            made.map(|(message, after)| {
                output[..message.len()].copy_from_slice(&message);
                (message.len(), after)
            }),
            (0, before),
        )
    }

    fn table_take(before: Attempt, message: &[u8], answer: &[u8], rows: &Rows) -> Given<Attempt> {
        given(naive_table::take(before, message, answer, rows), before)
    }
}

/// The record with these words added, which the output then has.
fn grown(output: &mut [u8], building: Building, words: &[u32]) -> Building {
    let start = 4 * building.words;
    output[start..start + 4 * words.len()].copy_from_slice(&bytes_of(words));
    let data = if building.kind == 1 { 0 } else { words[0] as usize >> 16 & 0xFFF };
    Building {
        words: building.words + words.len(),
        last: building.words,
        answer: building.answer + 1 + data,
        ..building
    }
}

fn refusal((number, at): Wrong) -> Refusal {
    Refusal::of(number).at_word(at)
}

fn given<T>(after: Result<T, Wrong>, otherwise: T) -> Given<T> {
    match after {
        Ok(after) => (Refusal::of(0), after),
        Err(wrong) => (refusal(wrong), otherwise),
    }
}

/// Each answered command; none where anything is refused.
pub fn told(request: &[u8], answer: &[u8]) -> Vec<(u32, usize, usize)> {
    naive_sender::sendable(request, None)
        .and_then(|request| naive_sender::judge(&request, answer))
        .unwrap_or_default()
}
