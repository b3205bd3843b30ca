//! Request [9] at the sender: up to four messages wait, and end in order of tag.

use crate::common::{at, bytes_of, of, Ends};
use crate::Ours;
use charkhavo_host::plain::Sender;

/// A NOP of no words of this tag, and its answer.
fn nop(tag: u8) -> Vec<u8> {
    bytes_of(&[0x8000_0000 | u32::from(tag % 16)])
}

fn answer(tag: u8) -> Vec<u8> {
    bytes_of(&[0x8000_0030 | u32::from(tag % 16)])
}

/// A sender at which so many wait; the younger ones that are answered are marked.
fn sender(next: u8, waiting: u8, answered: [bool; 3]) -> Sender {
    Sender { next, waiting, answered }
}

fn waiting(next: u8, waiting: u8) -> Sender {
    sender(next, waiting, [false; 3])
}

/// All three marks, each set or not.
fn marks() -> impl Iterator<Item = [bool; 3]> {
    (0..8).map(|bits| [1, 2, 4].map(|bit| bits & bit != 0))
}

#[test]
fn four_are_offered_and_no_fifth() {
    for next in 0..16 {
        let mut sender = Sender::idle(next);
        for more in 0..4 {
            for tag in 0..16 {
                let offered = Ours::offer(sender, &nop(tag));
                if tag != (next + more) % 16 {
                    assert_eq!(offered, (of(31), sender), "tag {tag}, the next {next} + {more}");
                }
            }
            let offered = Ours::offer(sender, &nop(next + more));
            assert_eq!(offered, (of(0), waiting(next, more + 1)));
            sender = offered.1;
        }
        for tag in 0..16 {
            assert_eq!(Ours::offer(sender, &nop(tag)), (of(36), sender));
        }
    }
}

/// With every record, each tag: a message that waits and is not answered is sent, no other.
#[test]
fn sending_asks_for_one_that_waits_and_is_not_answered() {
    for (next, many) in (0..16).flat_map(|next| (1..=4).map(move |many| (next, many))) {
        for answered in marks() {
            let sender = sender(next, many, answered);
            for tag in 0..16 {
                let place = usize::from((tag + 16 - next) % 16);
                let open = place == 0 || (place < many.into() && !answered[place - 1]);
                let message = nop(tag);
                let expected = if open { (of(0), message.len()) } else { (of(31), 0) };
                assert_eq!(Ours::send(sender, &message), expected, "{sender:?}, tag {tag}");
                let taken = Ours::take(sender, &message, &answer(tag));
                assert_eq!(taken.0, expected.0, "{sender:?}, tag {tag}");
                assert!(open || taken.1 == (sender, 0));
            }
        }
    }
}

#[test]
fn answers_in_order_end_one_each() {
    let mut sender = waiting(14, 4);
    for ended in 1..=4 {
        let tag = 13 + ended;
        let taken = Ours::take(sender, &nop(tag), &answer(tag));
        let next = (14 + ended) % 16;
        assert_eq!(taken, (of(0), (waiting(next, 4 - ended), 1)));
        sender = taken.1 .0;
    }
    assert_eq!(sender, Sender::idle(2));
}

/// An answer to a younger message marks it; one to the oldest ends it and the answered right behind.
#[test]
fn crossed_answers_end_in_order_of_tag() {
    let take = |sender, tag| {
        let (refusal, after) = Ours::take(sender, &nop(tag), &answer(tag));
        assert_eq!(refusal, of(0));
        after
    };
    let four = waiting(14, 4);
    let marked = |answered| (sender(14, 4, answered), 0);
    assert_eq!(take(four, 15), marked([true, false, false]));
    assert_eq!(take(four, 0), marked([false, true, false]));
    assert_eq!(take(four, 1), marked([false, false, true]));
    // Fourth, second, first: two end, the fourth waits on as the second of two.
    let (after, _) = take(four, 1);
    let (after, ended) = take(after, 15);
    assert_eq!((after, ended), marked([true, false, true]));
    assert_eq!(take(after, 14), (sender(0, 2, [true, false, false]), 2));
    // Then the third: both end.
    assert_eq!(take(take(after, 14).0, 0), (Sender::idle(2), 2));
    // All three younger ones, then the oldest: four end.
    assert_eq!(take(sender(14, 4, [true; 3]), 14), (Sender::idle(2), 4));
    // The third and fourth, then the oldest: one ends.
    let after = take(sender(14, 4, [false, true, true]), 14);
    assert_eq!(after, (sender(15, 3, [true, true, false]), 1));
    assert_eq!(take(after.0, 15), (Sender::idle(2), 3));
}

/// Every record at which some wait, and every message of it that is not answered: what ends, and
/// what the record then says, by the marks written out one by one.
#[test]
fn taking_with_every_record() {
    for (next, many) in (0..16).flat_map(|next| (1..=4u8).map(move |many| (next, many))) {
        for answered in marks() {
            let before = sender(next, many, answered);
            for place in 0..many {
                let mut waits: Vec<bool> = (0..many)
                    .map(|k| k == place || (k > 0 && answered[usize::from(k) - 1]))
                    .collect();
                if place > 0 && answered[usize::from(place) - 1] {
                    continue;
                }
                let ended = waits.iter().take_while(|answered| **answered).count();
                waits.drain(..ended);
                let mark = |k: usize| waits.get(k).copied().unwrap_or(false);
                let ended = ended as u8;
                let after = sender((next + ended) % 16, many - ended, [mark(1), mark(2), mark(3)]);
                let tag = next + place;
                let taken = Ours::take(before, &nop(tag), &answer(tag));
                assert_eq!(taken, (of(0), (after, ended)), "{before:?}, place {place}");
            }
        }
    }
}

/// What a record says of messages that do not wait is not looked at, and an offer clears it.
#[test]
fn marks_of_messages_that_do_not_wait() {
    for answered in marks() {
        let [second, third, _] = answered;
        let offered = |many| Ours::offer(sender(3, many, answered), &nop(3 + many)).1;
        assert_eq!(offered(0), waiting(3, 1));
        assert_eq!(offered(1), waiting(3, 2));
        assert_eq!(offered(2), sender(3, 3, [second, false, false]));
        assert_eq!(offered(3), sender(3, 4, [second, third, false]));
        let ended = Ours::take(sender(3, 1, answered), &nop(3), &answer(3));
        assert_eq!(ended, (of(0), (Sender::idle(4), 1)), "no mark ends what does not wait");
        assert_eq!(Ours::send(sender(3, 1, answered), &nop(3)).0, of(0));
        assert_eq!(Ours::send(sender(3, 0, answered), &nop(3)).0, of(30));
    }
}

/// 33 judges by the message lent: the answer to another one that waits is refused, and marks nothing.
#[test]
fn an_answer_is_held_against_the_message_lent() {
    let four = waiting(14, 4);
    for lent in 14..18 {
        for given in 0..16 {
            let taken = Ours::take(four, &nop(lent), &answer(given));
            let own = given == lent % 16;
            assert_eq!(taken.0, of(if own { 0 } else { 33 }));
            assert!(own || taken.1 == (four, 0));
        }
    }
    // The same kind and count, so that only the tag tells them apart.
    let [one, other] = [bytes_of(&[0x8001_002E, 0]), bytes_of(&[0x8001_003F, 7])];
    assert_eq!(Ours::take(four, &one, &other), (of(33), (four, 0)));
}

/// For every order of two refusals an input that has both faults.
#[test]
fn order_of_refusals_with_four_waiting() {
    let (four, five) = (waiting(14, 4), waiting(14, 5));
    assert_eq!(Ours::offer(five, &nop(2)).0, of(37), "37 before 36: more than four wait");
    assert_eq!(Ours::offer(waiting(16, 4), &nop(4)).0, of(37), "37 before 36: the next tag");
    assert_eq!(Ours::offer(four, &[]).0, of(36), "36 before 31");
    assert_eq!(Ours::offer(four, &nop(7)).0, of(36), "36 before 31: the tag");
    assert_eq!(Ours::send(waiting(16, 0), &nop(0)).0, of(37), "37 before 30");
    assert_eq!(Ours::send(five, &nop(7)).0, of(37), "37 before 31");
    assert_eq!(Ours::take(five, &nop(14), &[]).0, of(37), "37 before 32");
    assert_eq!(Ours::take(Sender::idle(0), &nop(7), &[]).0, of(30), "30 before 31 and 32");
    let second = sender(14, 4, [true, false, false]);
    assert_eq!(Ours::take(second, &nop(15), &[]).0, of(31), "31 before 32: answered");
    assert_eq!(Ours::take(second, &nop(15), &answer(0)).0, of(31), "31 before 33: answered");
    assert_eq!(Ours::take(four, &nop(2), &answer(0)).0, of(31), "31 before 33: does not wait");
    let no_second = bytes_of(&[0x0001_0027, 0]);
    assert_eq!(Ours::send(four, &no_second).0, at(31, 2), "the walk before the tag");
    let discovery = bytes_of(&[0x8000_0087]);
    assert_eq!(Ours::send(four, &discovery).0, of(31), "and the discovery bit");
    assert_eq!(Ours::take(four, &nop(14), &[0; 3]).0, of(32), "32 before 33");
    let wrong = bytes_of(&[0x9000_0031]);
    assert_eq!(Ours::take(four, &nop(14), &wrong).0, of(33), "33 before 34");
}
