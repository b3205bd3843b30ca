//! The sender's calls and outcomes, for any records, requests and answers.

use crate::common::seen::Seen;
use crate::common::Ends;
use crate::{Other, Ours, ROUNDS, SEED};
use charkhavo_host::plain::Sender;
use charkhavo_host::random::sender::{discovery_answer, lent, Lent};
use charkhavo_host::random::{bytes_of, Random};

const LAST: u32 = 0x8000_0000;

#[test]
fn sender_calls() {
    let mut random = Random::new(SEED + 1);
    let (mut seen, mut later, mut statuses) = (Seen::default(), Seen::default(), Seen::default());
    let (mut ended, mut read) = (Seen::default(), 0);
    for round in 0..ROUNDS {
        let given = lent(&mut random);
        let Lent { sender, request, answer } = &given;
        let say = || format!("round {round}: {given:?}");
        let offered = Ours::offer(*sender, request);
        assert_eq!(offered, Other::offer(*sender, request), "{}", say());
        let sent = Ours::send(*sender, request);
        assert_eq!(sent, Other::send(*sender, request), "{}", say());
        let taken = Ours::take(*sender, request, answer);
        assert_eq!(taken, Other::take(*sender, request, answer), "{}", say());
        for refusal in [offered.0, sent.0, taken.0] {
            seen.note(refusal.number);
            later.note(if refusal.at == 0 { 0 } else { refusal.number });
        }
        if taken.0.number == 0 {
            ended.note(taken.1 .1.into());
        }
        let (status, length) = same_outcome(&mut random, request, answer);
        statuses.note(status);
        read += length;
    }
    seen.exactly([0, 30, 31, 32, 33, 34, 35, 36, 37]);
    later.exactly([0, 31, 34, 35]);
    ended.exactly(0..=4);
    statuses.exactly([0, 1, 2, 3]);
    assert!(read > ROUNDS, "{read} bytes of read data");
}

/// Every record near the numbers' edges, with every mark, and a message and an answer of each tag.
#[test]
fn sender_records() {
    let nexts = (0..=17).chain([u8::MAX]);
    let all = nexts.flat_map(|next| [0, 1, 2, 3, 4, 5, 6, u8::MAX].map(|waiting| (next, waiting)));
    for (next, waiting) in all {
        for marks in 0..8 {
            let answered = [1, 2, 4].map(|bit| marks & bit != 0);
            let sender = Sender { next, waiting, answered };
            for tag in 0..16 {
                let (request, answer) = (bytes_of(&[LAST | tag]), bytes_of(&[LAST | 0x30 | tag]));
                let other = bytes_of(&[LAST | 0x30 | ((tag + 1) % 16)]);
                let offered = Ours::offer(sender, &request);
                assert_eq!(offered, Other::offer(sender, &request), "{sender:?}, tag {tag}");
                let sent = Ours::send(sender, &request);
                assert_eq!(sent, Other::send(sender, &request), "{sender:?}, tag {tag}");
                for answer in [answer, other] {
                    let taken = Ours::take(sender, &request, &answer);
                    let others = Other::take(sender, &request, &answer);
                    assert_eq!(taken, others, "{sender:?}, tag {tag}, {answer:?}");
                }
            }
        }
    }
}

/// Count, and status and read data of a command or of one that is not there; gives the last two.
fn same_outcome(random: &mut Random, request: &[u8], answer: &[u8]) -> (u32, usize) {
    let count = Ours::count(request, answer);
    assert_eq!(count, Other::count(request, answer));
    let k = match random.below(8) {
        0 => count,
        1 => random.long() as usize,
        2 => count.saturating_sub(1),
        _ => random.below(count + 1),
    };
    let status = Ours::status(request, answer, k);
    assert_eq!(status, Other::status(request, answer, k), "{request:?} {answer:?} {k}");
    let (start, length) = Ours::read_data(request, answer, k);
    let other = Other::read_data(request, answer, k);
    assert_eq!((start, length), other, "{request:?} {answer:?} {k}");
    (status, length)
}

#[test]
fn senders_from_discovery_answers() {
    let mut random = Random::new(SEED + 2);
    let mut seen = Seen::default();
    assert_eq!(Ours::discovery(), Other::discovery());
    assert_eq!(Ours::fresh(), Other::fresh());
    for round in 0..ROUNDS {
        let answer = discovery_answer(&mut random);
        let discovered = Ours::discovered(&answer);
        assert_eq!(discovered, Other::discovered(&answer), "round {round}: {answer:02X?}");
        seen.note(discovered.0.number);
    }
    seen.exactly([0, 32, 33, 34, 35, 38]);
}
