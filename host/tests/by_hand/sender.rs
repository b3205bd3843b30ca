//! The sender's refusals 30 to 38 by hand, their order, and outcomes, with one message waiting.

use crate::common::ends::ABSENT;
use crate::common::{at, bytes_of, of, Bench, Ends};
use crate::Ours;
use charkhavo_host::limits::{BYTES, WORDS};
use charkhavo_host::plain::Sender;
use charkhavo_host::Refusal;

const LAST: u32 = 0x8000_0000;
/// Reads of 2 and of 1 word, tag 5.
const READS: [u32; 4] = [0x0002_0025, 0, 0x8001_0025, 8];
const ANSWER: [u32; 5] = [0x0002_0035, 11, 12, 0x8001_0035, 13];

fn waiting() -> Sender {
    Sender { waiting: 1, ..Sender::idle(5) }
}

/// What taking this answer to READS gives; a refusal must leave the sender as it was.
fn taken(answer: &[u32]) -> Refusal {
    let (refusal, after) = Ours::take(waiting(), &bytes_of(&READS), &bytes_of(answer));
    let ended = (Sender::idle(6), 1);
    assert_eq!(after, if refusal == of(0) { ended } else { (waiting(), 0) });
    refusal
}

#[test]
fn a_message_from_offer_to_answer() {
    let request = bytes_of(&[0x8001_0F10, 4, 7]);
    let sender = Ours::fresh();
    assert_eq!(sender, Sender { next: 0, waiting: 0, answered: [false; 3] });
    let offered = Sender { waiting: 1, ..sender };
    assert_eq!(Ours::offer(sender, &request), (of(0), offered));
    for _ in 0..3 {
        assert_eq!(Ours::send(offered, &request), (of(0), request.len()));
    }
    let taken = Ours::take(offered, &request, &bytes_of(&[0x8000_0030]));
    assert_eq!(taken, (of(0), (Sender::idle(1), 1)));
}

#[test]
fn a_failed_command_ends_the_message_and_15_is_followed_by_0() {
    for status in [1, 2] {
        let sender = Sender { waiting: 1, ..Sender::idle(15) };
        let answer = bytes_of(&[0x8000_003F | status << 8]);
        let taken = Ours::take(sender, &bytes_of(&[0x0001_002F, 0, 0x8001_002F, 0]), &answer);
        assert_eq!(taken, (of(0), (Ours::fresh(), 1)));
    }
}

#[test]
fn refusals_37_36_30_come_before_all_others() {
    let wrong = [(16, 0), (16, 1), (16, 4), (16, 5), (u8::MAX, 0), (0, 5), (15, 5), (5, u8::MAX)];
    for (next, waiting) in wrong {
        let sender = Sender { waiting, ..Sender::idle(next) };
        assert_eq!(Ours::offer(sender, &[]), (of(37), sender));
        assert_eq!(Ours::send(sender, &[]), (of(37), 0));
        assert_eq!(Ours::take(sender, &[], &[]), (of(37), (sender, 0)));
    }
    let four = Sender { waiting: 4, ..Sender::idle(5) };
    assert_eq!(Ours::offer(four, &[]), (of(36), four));
    assert_eq!(Ours::send(Ours::fresh(), &[]), (of(30), 0));
    assert_eq!(Ours::take(Ours::fresh(), &[], &[]), (of(30), (Ours::fresh(), 0)));
}

#[test]
fn refusal_31() {
    let bad: [&[u32]; 6] = [
        &[],
        &[0x8001_0026, 0],
        &[0x8001_00A5, 0],
        &[0x8001_0025],
        &[0x8000_0025, 0],
        &[0x8FFF_0025, 0],
    ];
    for request in bad.map(bytes_of) {
        let open = Sender::idle(5);
        assert_eq!(Ours::offer(open, &request), (of(31), open));
        assert_eq!(Ours::send(waiting(), &request), (of(31), 0));
        assert_eq!(Ours::take(waiting(), &request, &[]), (of(31), (waiting(), 0)), "31 before 32");
    }
}

/// 31 is where the request is at fault, for each call that gives it.
#[test]
fn refusal_31_at_a_later_header() {
    let faults: [&[u32]; 4] = [&[], &[0x8001_0026, 0], &[0x9001_0025, 0], &[0x8001_0025, 0, 0]];
    for before in 1..WORDS / 2 - 1 {
        for fault in faults {
            let words = [[0x0001_0025, 0].repeat(before).as_slice(), fault].concat();
            let (request, refusal) = (bytes_of(&words), at(31, 2 * before));
            let open = Sender::idle(5);
            assert_eq!(Ours::offer(open, &request), (refusal, open));
            assert_eq!(Ours::send(waiting(), &request), (refusal, 0));
            assert_eq!(Ours::take(waiting(), &request, &[]), (refusal, (waiting(), 0)));
        }
    }
}

#[test]
fn refusal_32() {
    assert_eq!(taken(&ANSWER), of(0));
    for length in [0, 1, 3, 21, BYTES + 4] {
        let taken = Ours::take(waiting(), &bytes_of(&READS), &vec![0xFF; length]);
        assert_eq!(taken, (of(32), (waiting(), 0)), "{length} bytes");
    }
}

#[test]
fn refusal_33() {
    for bit in 0..8 {
        let mut answer = ANSWER;
        answer[0] ^= 1 << bit;
        answer[0] |= 7 << 28;
        assert_eq!(taken(&answer), of(33), "bit {bit}, before 34");
    }
}

#[test]
fn refusal_34() {
    for bit in (8..11).chain(12..31) {
        let mut answer = ANSWER;
        answer[0] ^= 1 << bit;
        assert_eq!(taken(&answer), of(34), "bit {bit} of the first");
    }
    for bit in (0..8).chain(10..31) {
        let mut answer = ANSWER;
        answer[3] ^= 1 << bit;
        assert_eq!(taken(&answer), at(34, 3), "bit {bit} of the second");
    }
    assert_eq!(taken(&[0x8000_0335]), of(34), "status 3");
    assert_eq!(taken(&[0x8001_0235, 0]), of(34), "an Error with data");
    assert_eq!(taken(&[0x8001_0035, 0]), of(34), "34 before 35 at one header");
}

#[test]
fn refusal_35() {
    assert_eq!(taken(&ANSWER[..4]), at(35, 3), "body past the end");
    assert_eq!(taken(&ANSWER[..3]), at(35, 3), "no word there");
    assert_eq!(taken(&ANSWER[..2]), of(35));
    let [one, two, three, four, five] = ANSWER;
    assert_eq!(taken(&[one | LAST, two, three, four, five]), of(35), "early");
    assert_eq!(taken(&[one | LAST, two, three]), of(35), "early, and the end there");
    assert_eq!(taken(&[one, two, three, four & !LAST, five]), at(35, 3), "missing");
    assert_eq!(taken(&[one, two, three, four, five, 0]), at(35, 3), "words after it");
    assert_eq!(taken(&[0x0000_0235]), of(35), "missing on an Error");
    assert_eq!(taken(&[0x8000_0235, 0]), of(35), "words after an Error");
    assert_eq!(taken(&[one, two, three, 0x8000_0135]), of(0), "Timeout on the second");
}

#[test]
fn counts_by_kind() {
    let take = |request: &[u32], answer: &[u32]| {
        let sender = Sender { waiting: 1, ..Sender::fresh() };
        Ours::take(sender, &bytes_of(request), &bytes_of(answer)).0
    };
    assert_eq!(take(&[0x8001_0F10, 0, 0], &[0x8001_0030, 0]), of(34), "a write's is 0");
    assert_eq!(take(&[0x8002_0000, 0, 0], &[0x8002_0030, 1, 2]), of(0));
    assert_eq!(take(&[0x8002_0000, 0, 0], &[0x8001_0030, 1]), of(34));
    assert_eq!(take(&[0x8000_0040], &[0x8000_0070]), of(0));
    assert_eq!(take(&[0x8000_0040], &[0x8000_0030]), of(33), "bit 6 is kept");
}

#[test]
fn a_sender_from_a_discovery_answer() {
    let from = |words: &[u32]| Ours::discovered(&bytes_of(words));
    let sender = |next| (of(0), Sender::idle(next));
    let refused = |number| (of(number), Sender::idle(16));
    let limit = BYTES as u32;
    assert_eq!(from(&[0x8002_00B0, limit, 0]), sender(0));
    assert_eq!(from(&[0x8002_00B0, limit, 16]), sender(1));
    assert_eq!(from(&[0x8002_00B0, limit, 30]), sender(15));
    assert_eq!(from(&[0x8002_00B0, limit, 31]), sender(0));
    assert_eq!(from(&[0x8002_00B0, 0, 16]), sender(1), "word 0 is not judged");
    for word in (1..16).chain([32, 48, 63, u32::MAX, 1 << 31]) {
        assert_eq!(from(&[0x8002_00B0, limit, word]), refused(38), "word 1 {word}");
    }
    assert_eq!(from(&[0x8000_01B0]), refused(38));
    assert_eq!(from(&[0x8000_02B0]), refused(38));
    assert_eq!(from(&[0x8000_03B0]), refused(34));
    assert_eq!(from(&[]), refused(32));
    assert_eq!(from(&[0x8002_0030, limit, 0]), refused(33));
    assert_eq!(from(&[0x8001_00B0, limit]), refused(34));
    assert_eq!(from(&[0x8002_00B0, limit]), refused(35));
    let (_, unusable) = refused(38);
    assert_eq!(Ours::offer(unusable, &bytes_of(&[0x8001_0020, 0])), (of(37), unusable));
}

#[test]
fn the_fixed_discovery_and_its_answers() {
    let discovery = Ours::discovery();
    assert_eq!(discovery.to_vec(), bytes_of(&[0x8002_0080, 0x0000_230C, 0]));
    let mut fresh = Bench::sheet();
    let answer = fresh.give_bytes(&discovery).unwrap();
    assert_eq!(Ours::discovered(&bytes_of(&answer)), (of(0), Ours::fresh()));
    for tag in 0..16 {
        let answer = Bench::with_tag(tag).give_bytes(&discovery).unwrap();
        let sender = Sender::idle((tag as u8 + 1) % 16);
        assert_eq!(Ours::discovered(&bytes_of(&answer)), (of(0), sender));
        let answer = Bench::with_tags(tag, 4).give_bytes(&discovery).unwrap();
        assert_eq!(Ours::discovered(&bytes_of(&answer)), (of(0), sender), "the newest");
    }
}

#[test]
fn outcomes() {
    let (request, answer) = (bytes_of(&READS), bytes_of(&ANSWER));
    assert_eq!(Ours::count(&request, &answer), 2);
    assert_eq!(Ours::status(&request, &answer, 1), 0);
    assert_eq!(Ours::status(&request, &answer, 2), ABSENT);
    assert_eq!(Ours::read_data(&request, &answer, 0), (4, 8));
    assert_eq!(Ours::read_data(&request, &answer, 1), (16, 4));
    assert_eq!(Ours::read_data(&request, &answer, 2), (0, 0));
    assert_eq!(Ours::read_data(&request, &answer, usize::MAX), (0, 0));
    let failed = bytes_of(&[0x0002_0035, 11, 12, 0x8000_0235]);
    assert_eq!(Ours::count(&request, &failed), 2);
    assert_eq!(Ours::status(&request, &failed, 1), 2);
    assert_eq!(Ours::read_data(&request, &failed, 0), (4, 8));
    assert_eq!(Ours::read_data(&request, &failed, 1), (0, 0));
}

#[test]
fn no_outcome_where_anything_is_refused() {
    let (request, answer) = (bytes_of(&READS), bytes_of(&ANSWER));
    let none = |request: &[u8], answer: &[u8]| {
        assert_eq!(Ours::count(request, answer), 0);
        assert_eq!(Ours::status(request, answer, 0), ABSENT);
        assert_eq!(Ours::read_data(request, answer, 0), (0, 0));
    };
    none(&request, &answer[..16]);
    none(&request[..4], &answer);
    none(&bytes_of(&[0x8001_00A0, 0]), &bytes_of(&[0x8001_00B0, 7]));
    let (nop, advertised) = (bytes_of(&[0x8001_0000, 0]), bytes_of(&[0x8001_0030, 7]));
    assert_eq!(Ours::status(&nop, &advertised, 0), 0);
    assert_eq!(Ours::read_data(&nop, &advertised, 0), (0, 0), "NOP data is no read data");
}
