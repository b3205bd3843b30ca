//! The ordinary implementation as ends.

use super::ends::{Ends, Given, ABSENT};
use charkhavo_host::limits::Rows;
use charkhavo_host::plain::table::{self, Attempt};
use charkhavo_host::plain::{self, message, outcome, sender};
use charkhavo_host::plain::{Addition, Building, Sender, TagRecord};
use charkhavo_host::Refusal;

pub struct Plain;

impl Ends for Plain {
    fn serve(
        memory: &mut [u32],
        stored: &mut [u32],
        kept: &mut [u8],
        output: &mut [u8],
        tags: &mut TagRecord,
        datagram: &[u8],
    ) -> Given<usize> {
        let served = plain::serve(memory, stored, kept, output, tags, datagram);
        (served.refusal, served.sent)
    }

    fn refusal(request: &[u8]) -> Refusal {
        refusal(&message::walk(request))
    }

    fn begin(
        output: &[u8],
        mut building: Building,
        kind: u32,
        tag: u32,
        wide: bool,
        discovery: bool,
    ) -> Given<Building> {
        let begun = building.begin(output, kind, tag, wide, discovery);
        (refusal(&begun), building)
    }

    fn add(output: &mut [u8], mut building: Building, addition: Addition) -> Given<Building> {
        let added = building.add(output, addition);
        (refusal(&added), building)
    }

    fn close(output: &mut [u8], mut building: Building) -> Given<Building> {
        let closed = building.close(output);
        (refusal(&closed), building)
    }

    fn discovery() -> [u8; 12] {
        sender::DISCOVERY
    }

    fn fresh() -> Sender {
        Sender::fresh()
    }

    fn discovered(answer: &[u8]) -> Given<Sender> {
        let sender = Sender::from_discovery(answer);
        (refusal(&sender), sender.unwrap_or(Sender::UNUSABLE))
    }

    fn offer(mut sender: Sender, request: &[u8]) -> Given<Sender> {
        let offered = sender.offer(request);
        (refusal(&offered), sender)
    }

    fn send(sender: Sender, request: &[u8]) -> Given<usize> {
        let sent = sender.send(request);
        (refusal(&sent), sent.map_or(0, <[u8]>::len))
    }

    fn take(mut sender: Sender, request: &[u8], answer: &[u8]) -> Given<(Sender, u8)> {
        let taken = sender.take(request, answer);
        (refusal(&taken), (sender, taken.unwrap_or(0)))
    }

    fn count(request: &[u8], answer: &[u8]) -> usize {
        outcome::count(request, answer)
    }

    fn status(request: &[u8], answer: &[u8], k: usize) -> u32 {
        outcome::status(request, answer, k).unwrap_or(ABSENT)
    }

    fn read_data(request: &[u8], answer: &[u8], k: usize) -> (usize, usize) {
        let data = outcome::read_data(request, answer, k);
        (data.start, data.len())
    }

    fn set_up(start: u64, room: u64) -> Refusal {
        refusal(&table::set_up(start, room))
    }

    fn attempt(sender: Sender) -> Attempt {
        Attempt::new(sender)
    }

    fn table_message(
        output: &mut [u8],
        mut attempt: Attempt,
        start: u64,
        room: u64,
        rows: &Rows,
    ) -> Given<(usize, Attempt)> {
        let made = attempt.message(output, start, room, rows);
        (refusal(&made), (made.unwrap_or(0), attempt))
    }

    fn table_take(
        mut attempt: Attempt,
        message: &[u8],
        answer: &[u8],
        rows: &Rows,
    ) -> Given<Attempt> {
        let taken = attempt.take(message, answer, rows);
        (refusal(&taken), attempt)
    }
}

fn refusal<T>(result: &Result<T, Refusal>) -> Refusal {
    result.as_ref().map_or_else(|refusal| *refusal, |_| Refusal::of(0))
}
