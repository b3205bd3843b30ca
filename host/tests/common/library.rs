//! The libraries as ends: the calls themselves, the records copied field by field.

use super::ends::{Ends, Given};
use charkhavo_host::ffi;
use charkhavo_host::limits::Rows;
use charkhavo_host::plain::table::Attempt;
use charkhavo_host::plain::{Addition, Building, Sender, TagRecord};
use charkhavo_host::Refusal;

pub struct Library;

impl Ends for Library {
    fn serve(
        memory: &mut [u32],
        stored: &mut [u32],
        kept: &mut [u8],
        output: &mut [u8],
        tags: &mut TagRecord,
        datagram: &[u8],
    ) -> Given<usize> {
        let TagRecord { held, tag, words, request } = *tags;
        let mut record = ffi::TagRecord { held, tag, words, request };
        let served = ffi::serve(memory, stored, kept, output, &mut record, datagram);
        let ffi::TagRecord { held, tag, words, request } = record;
        *tags = TagRecord { held, tag, words, request };
        (refusal(served.refusal), served.sent)
    }

    fn refusal(request: &[u8]) -> Refusal {
        refusal(ffi::refusal(request))
    }

    fn begin(
        output: &[u8],
        building: Building,
        kind: u32,
        tag: u32,
        wide: bool,
        discovery: bool,
    ) -> Given<Building> {
        let mut record = record(building);
        let refused = ffi::begin(output, &mut record, kind, tag, wide, discovery);
        built(refused, record)
    }

    fn add(output: &mut [u8], building: Building, addition: Addition) -> Given<Building> {
        let Addition { address, first, last, count, data } = addition;
        let asked = ffi::Asked { address, first, last, count };
        let mut record = record(building);
        let refused = ffi::add(output, &mut record, asked, data);
        built(refused, record)
    }

    fn close(output: &mut [u8], building: Building) -> Given<Building> {
        let mut record = record(building);
        let refused = ffi::close(output, &mut record);
        built(refused, record)
    }

    fn discovery() -> [u8; 12] {
        ffi::discovery()
    }

    fn fresh() -> Sender {
        left(ffi::fresh())
    }

    fn discovered(answer: &[u8]) -> Given<Sender> {
        moved(ffi::discovered(answer))
    }

    fn offer(sender: Sender, request: &[u8]) -> Given<Sender> {
        moved(ffi::offer(lent(sender), request))
    }

    fn send(sender: Sender, request: &[u8]) -> Given<usize> {
        let sending = ffi::send(lent(sender), request);
        (refusal(sending.refusal), sending.length)
    }

    fn take(sender: Sender, request: &[u8], answer: &[u8]) -> Given<(Sender, u8)> {
        let taken = ffi::take(lent(sender), request, answer);
        (refusal(taken.refusal), (left(taken.sender), taken.ended))
    }

    fn count(request: &[u8], answer: &[u8]) -> usize {
        ffi::count(request, answer)
    }

    fn status(request: &[u8], answer: &[u8], k: usize) -> u32 {
        ffi::status(request, answer, k)
    }

    fn read_data(request: &[u8], answer: &[u8], k: usize) -> (usize, usize) {
        let ffi::Part { start, length } = ffi::read_data(request, answer, k);
        (start, length)
    }

    fn set_up(start: u64, room: u64) -> Refusal {
        Refusal::of(ffi::set_up(start, room))
    }

    fn attempt(sender: Sender) -> Attempt {
        attempt_left(ffi::attempt(lent(sender)))
    }

    fn table_message(
        output: &mut [u8],
        attempt: Attempt,
        start: u64,
        room: u64,
        rows: &Rows,
    ) -> Given<(usize, Attempt)> {
        let made = ffi::table_message(output, attempt_lent(attempt), start, room, rows);
        (Refusal::of(made.refusal), (made.length as usize, attempt_left(made.attempt)))
    }

    fn table_take(attempt: Attempt, message: &[u8], answer: &[u8], rows: &Rows) -> Given<Attempt> {
        let taken = ffi::table_take(attempt_lent(attempt), message, answer, rows);
        (refusal(taken.refusal), attempt_left(taken.attempt))
    }
}

fn refusal(refused: ffi::Refused) -> Refusal {
    let ffi::Refused { number, at } = refused;
    Refusal { number, at }
}

fn record(building: Building) -> ffi::Building {
    let Building { kind, tag, wide, discovery, words, last, answer, closed } = building;
    ffi::Building { kind, tag, wide, discovery, words, last, answer, closed }
}

fn built(refused: ffi::Refused, record: ffi::Building) -> Given<Building> {
    let ffi::Building { kind, tag, wide, discovery, words, last, answer, closed } = record;
    let building = Building { kind, tag, wide, discovery, words, last, answer, closed };
    (refusal(refused), building)
}

fn lent(sender: Sender) -> ffi::Sender {
    let Sender { next, waiting, answered: [second, third, fourth] } = sender;
    ffi::Sender { next, waiting, second, third, fourth }
}

fn left(sender: ffi::Sender) -> Sender {
    let ffi::Sender { next, waiting, second, third, fourth } = sender;
    Sender { next, waiting, answered: [second, third, fourth] }
}

fn moved(moved: ffi::Moved) -> Given<Sender> {
    (refusal(moved.refusal), left(moved.sender))
}

fn attempt_lent(attempt: Attempt) -> ffi::TableAttempt {
    let Attempt { sender, stage, row } = attempt;
    ffi::TableAttempt { sender: lent(sender), stage, row }
}

fn attempt_left(attempt: ffi::TableAttempt) -> Attempt {
    let ffi::TableAttempt { sender, stage, row } = attempt;
    Attempt { sender: left(sender), stage, row }
}
