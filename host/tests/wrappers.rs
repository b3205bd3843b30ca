//! The wrappers by hand: what each call gives, and that a refusal changes nothing. That they do
//! the same as the ordinary implementation over long nights is `library`'s test of the channel.

use charkhavo_host::builder::{Builder, Enables, Head, Nop, Read, Write};
use charkhavo_host::limits::{BYTES, MEMORY, WORDS};
use charkhavo_host::random::bytes_of;
use charkhavo_host::{Controller, Outcome, Refusal, Sender, Status};

const A: [u32; 3] = [0x8001_0F10, 0x0000_0004, 0xFEED_C0DE];
/// Reads of 2 and of 1 word, tag 0.
const READS: [u32; 4] = [0x0002_0020, 0, 0x8001_0020, 8];
const ANSWER: [u32; 5] = [0x0002_0030, 11, 12, 0x8001_0030, 13];

fn head(tag: u32) -> Head {
    Head { tag, wide: false, discovery: false }
}

fn refused<T>(number: u32) -> Result<T, Refusal> {
    Err(Refusal::of(number))
}

fn refused_at<T>(number: u32, word: usize) -> Result<T, Refusal> {
    Err(Refusal::of(number).at_word(word))
}

#[test]
fn a_controller_serves_repeats_and_refuses() {
    let mut controller = Controller::fresh();
    let mut memory = [0; 8];
    assert_eq!(controller.tag(), None);
    let sent = bytes_of(&[0x8000_0030]);
    assert_eq!(controller.serve(&mut memory, &bytes_of(&A)), Ok(sent.as_slice()));
    assert_eq!((controller.tag(), memory[1]), (Some(0), 0xFEED_C0DE));
    for tag in 1..4 {
        controller.serve(&mut memory, &bytes_of(&[0x8001_0F10 | tag, 0, tag])).unwrap();
        assert_eq!(controller.tag(), Some(tag));
    }
    memory[1] = 5;
    assert_eq!(controller.serve(&mut memory, &bytes_of(&A)), Ok(sent.as_slice()));
    assert_eq!(memory[1], 5, "a repeat, of the fourth-last");
    let before = controller.clone();
    let early = bytes_of(&[0x8001_0F15, 4, 0]);
    assert_eq!(controller.serve(&mut memory, &early), refused(11));
    let other = bytes_of(&[A[0], A[1], 0]);
    assert_eq!(controller.serve(&mut memory, &other), refused(12));
    assert_eq!(controller.serve(&mut memory, &[]), refused(2));
    assert_eq!(controller.serve(&mut memory, &bytes_of(&READS[..2])), refused_at(3, 2));
    assert_eq!(controller.serve(&mut [], &bytes_of(&A)), refused(1));
    assert_eq!(controller.serve(&mut vec![0; MEMORY + 1], &bytes_of(&A)), refused(1));
    assert!(controller == before && memory == [3, 5, 0, 0, 0, 0, 0, 0]);
    let nop = bytes_of(&[0x8000_0001]);
    assert_eq!(Controller::fresh().serve(&mut memory, &nop), refused(11), "fresh takes only tag 0");
}

/// The fault that put us here: a loader that restarts and counts from nought. Its write was taken
/// for a repeat, answered OK and not stored; now it is refused, and one that asks gets through.
#[test]
fn a_controller_comes_up_fresh() {
    let mut controller = Controller::fresh();
    let mut memory = [0; 8];
    controller.serve(&mut memory, &bytes_of(&A)).unwrap();
    memory[1] = 5;
    controller.reset();
    assert_eq!((controller.tag(), memory[1]), (None, 5));
    assert_eq!(controller.serve(&mut memory, &bytes_of(&[0x8001_0F11, 4, 6])), refused(11));
    controller.serve(&mut memory, &bytes_of(&A)).unwrap();
    assert_eq!((controller.tag(), memory[1]), (Some(0), 0xFEED_C0DE), "new, not a repeat");
}

#[test]
fn a_loader_that_counts_from_nought_is_refused() {
    let (mut controller, mut memory) = (Controller::fresh(), [0; 8]);
    controller.serve(&mut memory, &bytes_of(&A)).unwrap();
    let mut sender = Sender::fresh();
    let delay = |tag: u32| bytes_of(&[0x8001_0F10 | tag, 8, 7]);
    sender.offer(&delay(0)).unwrap();
    assert_eq!(controller.serve(&mut memory, sender.send(0).unwrap()), refused(12));
    assert_eq!(memory[2], 0);
    let answer = controller.serve(&mut memory, &Sender::discovery()).unwrap();
    let mut sender = Sender::discovered(answer).unwrap();
    sender.offer(&delay(1)).unwrap();
    let answer = controller.serve(&mut memory, sender.send(1).unwrap()).unwrap();
    let outcomes: Vec<Outcome> = sender.take(answer).unwrap().collect();
    assert_eq!((outcomes.len(), outcomes[0].status(0)), (1, Some(Status::Ok)));
    assert_eq!(memory[2], 7);
}

#[test]
fn writes_are_built() {
    let mut builder = Builder::<Write>::begin(head(3)).unwrap();
    builder.write(0x10, Enables::whole(1), &[7]).unwrap();
    builder.write(0x20, Enables { first: 8, last: 1 }, &[1, 2]).unwrap();
    builder.write(0x30, Enables::whole(2), &[3, 4]).unwrap();
    assert_eq!(builder.message(), None);
    let one = [0x0001_0F13, 0x10, 7];
    let two = [0x0002_1813, 0x20, 1, 2];
    let three = [0x8002_FF13, 0x30, 3, 4];
    let message = bytes_of(&[&one[..], &two, &three].concat());
    assert_eq!(builder.close(), Ok(message.as_slice()));
    assert_eq!(builder.message(), Some(message.as_slice()));
}

#[test]
fn reads_and_nops_are_built() {
    let wide = Head { tag: 15, wide: true, discovery: true };
    let mut builder = Builder::<Read>::begin(wide).unwrap();
    builder.read(1 << 40, 9).unwrap();
    assert_eq!(builder.close(), Ok(bytes_of(&[0x8009_00EF, 0, 0x100]).as_slice()));
    let mut builder = Builder::<Nop>::begin(head(4)).unwrap();
    builder.nop(&[]).unwrap();
    builder.nop(&[8, 9]).unwrap();
    assert_eq!(builder.close(), Ok(bytes_of(&[0x0000_0004, 0x8002_0004, 8, 9]).as_slice()));
}

#[test]
fn building_is_refused() {
    assert_eq!(Builder::<Nop>::begin(head(16)), refused(21));
    let mut writes = Builder::<Write>::begin(head(0)).unwrap();
    let before = writes.clone();
    assert_eq!(writes.close(), refused(22));
    assert_eq!(writes.write(0, Enables::whole(0), &[]), refused(23));
    assert_eq!(writes.write(0, Enables { first: 1, last: 0 }, &[1, 2]), refused(24));
    assert_eq!(writes.write(1 << 32, Enables::whole(1), &[1]), refused(25));
    assert_eq!(writes.write(0, Enables::whole(WORDS), &[0; WORDS]), refused(26));
    assert!(writes == before);
    let mut reads = Builder::<Read>::begin(head(0)).unwrap();
    assert_eq!(reads.read(0, 0), refused(23));
    assert_eq!(reads.read(0, WORDS), refused(26));
    assert_eq!(reads.read(0, WORDS - 1), Ok(()));
    assert!(reads.close().is_ok());
    assert_eq!(reads.read(0, 1), refused(22));
    assert_eq!(reads.close(), refused(22));
    let mut nops = Builder::<Nop>::begin(head(0)).unwrap();
    assert_eq!(nops.nop(&[0; 3]), refused(23));
}

#[test]
fn a_sender_keeps_its_message_until_it_is_answered() {
    let (reads, answer) = (bytes_of(&READS), bytes_of(&ANSWER));
    let mut sender = Sender::fresh();
    assert_eq!(sender.send(0), refused(30));
    assert_eq!(sender.take(&answer), refused(30));
    assert_eq!(sender.offer(&bytes_of(&[0x8001_0021, 0])), refused(31));
    assert_eq!(sender.offer(&vec![0; BYTES + 4]), refused(31));
    assert_eq!(sender.offer(&reads[..8]), refused_at(31, 2));
    assert_eq!(sender, Sender::fresh());
    assert_eq!(sender.offer(&reads), Ok(()));
    let waiting = sender.clone();
    assert_eq!(sender.offer(&bytes_of(&A)), refused(31), "its tag waits already");
    assert_eq!(sender.send(1), refused(31));
    assert_eq!(sender.send(4), refused(31), "another tag of the same place");
    assert_eq!(sender.take(&[]), refused(32));
    assert_eq!(sender.take(&bytes_of(&[0x8000_0031])), refused(33));
    assert_eq!(sender.take(&bytes_of(&[0x8000_0030])), refused(34));
    assert_eq!(sender.take(&answer[..16]), refused_at(35, 3));
    assert!(sender == waiting && sender.waiting() == 1);
    assert_eq!(sender.send(0), Ok(reads.as_slice()));
    assert_eq!(outcomes(&mut sender, &answer), [(reads, answer)]);
    assert_eq!((sender.new_tag(), sender.waiting()), (1, 0));
    assert_eq!(sender.send(0), refused(30));
}

/// Messages and answers of the outcomes that taking an answer gives.
fn outcomes(sender: &mut Sender, answer: &[u8]) -> Vec<(Vec<u8>, Vec<u8>)> {
    let outcomes = sender.take(answer).expect("taken");
    outcomes.map(|outcome| (outcome.request().to_vec(), outcome.answer().to_vec())).collect()
}

/// Reads of one word under tags 0 to 3, and their answers.
fn four() -> (Vec<Vec<u8>>, Vec<Vec<u8>>) {
    let reads = (0..4).map(|tag| bytes_of(&[0x8001_0020 | tag, 4 * tag])).collect();
    let answers = (0..4).map(|tag| bytes_of(&[0x8001_0030 | tag, 0xB000 + tag])).collect();
    (reads, answers)
}

#[test]
fn a_sender_keeps_four_messages_and_hands_outcomes_out_in_order() {
    let (reads, answers) = four();
    let pair = |k: usize| (reads[k].clone(), answers[k].clone());
    let mut sender = Sender::fresh();
    for (tag, read) in reads.iter().enumerate() {
        assert_eq!(sender.new_tag(), tag as u32);
        sender.offer(read).unwrap();
    }
    assert_eq!(sender.offer(&bytes_of(&[0x8000_0004])), refused(36));
    assert_eq!((sender.waiting(), sender.new_tag()), (4, 4));
    assert_eq!(outcomes(&mut sender, &answers[3]), []);
    assert_eq!(outcomes(&mut sender, &answers[1]), []);
    assert_eq!(sender.unanswered().collect::<Vec<u32>>(), [0, 2]);
    assert_eq!(sender.send(1), refused(31), "answered");
    assert_eq!(sender.take(&answers[1]), refused(33), "and so is its answer once more");
    assert_eq!(sender.send(2), Ok(reads[2].as_slice()));
    assert_eq!(sender.waiting(), 4, "an answered one waits for those before it");
    assert_eq!(outcomes(&mut sender, &answers[0]), [pair(0), pair(1)]);
    assert_eq!((sender.waiting(), sender.new_tag()), (2, 4));
    let nop = bytes_of(&[0x8000_0004]);
    sender.offer(&nop).unwrap();
    assert_eq!(sender.unanswered().collect::<Vec<u32>>(), [2, 4]);
    assert_eq!(outcomes(&mut sender, &answers[2]), [pair(2), pair(3)]);
    let done = bytes_of(&[0x8000_0034]);
    assert_eq!(outcomes(&mut sender, &done), [(nop, done)]);
    assert_eq!((sender.waiting(), sender.new_tag()), (0, 5));
}

/// All four at once, the tags past 15, and what each tells.
#[test]
fn four_outcomes_at_once() {
    let (mut controller, mut memory) = (Controller::fresh(), [0; 8]);
    for tag in 0..14 {
        controller.serve(&mut memory, &bytes_of(&[0x8000_0000 | tag])).unwrap();
    }
    let answer = controller.serve(&mut memory, &Sender::discovery()).unwrap();
    let mut sender = Sender::discovered(answer).unwrap();
    for number in [11, 12, 13, 14] {
        let write = [0x8001_0F10 | sender.new_tag(), 4 * (number % 8), number];
        sender.offer(&bytes_of(&write)).unwrap();
    }
    let tags: Vec<u32> = sender.unanswered().collect();
    assert_eq!(tags, [14, 15, 0, 1]);
    let serve = |tag: &u32| controller.serve(&mut memory, sender.send(*tag)?).map(<[u8]>::to_vec);
    let answers: Vec<Vec<u8>> = tags.iter().map(serve).collect::<Result<_, _>>().unwrap();
    for answer in answers[1..].iter().rev() {
        assert_eq!(sender.take(answer).unwrap().len(), 0);
    }
    let outcomes = sender.take(&answers[0]).unwrap();
    assert_eq!(outcomes.len(), 4);
    assert!(outcomes.map(|outcome| outcome.status(0)).eq([Some(Status::Ok); 4]));
    assert_eq!((sender.new_tag(), &memory[3..7]), (2, &[11, 12, 13, 14][..]));
}

#[test]
fn a_shorter_message_after_a_longer_one() {
    let mut sender = Sender::fresh();
    sender.offer(&bytes_of(&READS)).unwrap();
    outcomes(&mut sender, &bytes_of(&ANSWER));
    for tag in 1..=4 {
        let (nop, done) = (bytes_of(&[0x8000_0000 | tag]), bytes_of(&[0x8000_0030 | tag]));
        sender.offer(&nop).unwrap();
        assert_eq!(sender.send(tag), Ok(nop.as_slice()));
        assert_eq!(outcomes(&mut sender, &done), [(nop, done)], "tag 4 at the place of tag 0");
    }
}

#[test]
fn a_sender_goes_on_where_the_controller_is() {
    let mut memory = [0; 8];
    let mut controller = Controller::fresh();
    let answer = controller.serve(&mut memory, &Sender::discovery()).unwrap();
    assert_eq!(Sender::discovered(answer), Ok(Sender::fresh()));
    for tag in 0..15 {
        controller.serve(&mut memory, &bytes_of(&[0x8001_0F10 | tag, 4, 1])).unwrap();
    }
    let answer = controller.serve(&mut memory, &Sender::discovery()).unwrap();
    assert_eq!(Sender::discovered(answer).unwrap().new_tag(), 15);
    assert_eq!(Sender::discovered(&[]), refused(32));
    assert_eq!(Sender::discovered(&bytes_of(&[0x8002_00B0, 0, 32])), refused(38));
}

#[test]
fn outcomes_are_parts_of_the_answer() {
    let (reads, answer) = (bytes_of(&READS), bytes_of(&ANSWER));
    let outcome = Outcome::new(&reads, &answer);
    assert_eq!(outcome.count(), 2);
    assert_eq!(outcome.status(0), Some(Status::Ok));
    assert_eq!((outcome.status(2), outcome.read_data(2)), (None, &[][..]));
    assert!(std::ptr::eq(outcome.read_data(0), &answer[4..12]));
    assert!(std::ptr::eq(outcome.read_data(1), &answer[16..20]));
    for (number, status) in [(1, Status::Timeout), (2, Status::Error)] {
        let failed = bytes_of(&[0x0002_0030, 11, 12, 0x8000_0030 | number << 8]);
        let outcome = Outcome::new(&reads, &failed);
        assert_eq!((outcome.count(), outcome.status(1)), (2, Some(status)));
        assert_eq!((outcome.read_data(0), outcome.read_data(1)), (&failed[4..12], &[][..]));
    }
    let refused = Outcome::new(&reads, &answer[..16]);
    assert_eq!((refused.count(), refused.status(0)), (0, None));
}
