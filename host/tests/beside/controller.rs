//! The controller's call, for any buffers, records and datagrams.

use crate::common::seen::Seen;
use crate::common::{Ends, Given};
use crate::{Other, Ours, ROUNDS, SEED};
use charkhavo_host::limits::BYTES;
use charkhavo_host::random::controller::{lent, Lent};
use charkhavo_host::random::Random;

#[test]
fn controller_calls() {
    let mut random = Random::new(SEED);
    let (mut seen, mut requests) = (Seen::default(), Seen::default());
    let (mut met, mut differing) = (Met::default(), Differing::default());
    let mut ours = lent(&mut random);
    let mut other = ours.clone();
    for round in 0..ROUNDS {
        let given = lent(&mut random);
        copy(&given, &mut ours);
        copy(&given, &mut other);
        let (refusal, sent) = serve::<Ours>(&mut ours);
        assert_eq!((refusal, sent), serve::<Other>(&mut other), "round {round}: {given:?}");
        assert!(ours == other, "round {round}: {given:?}");
        seen.note(refusal.number);
        let well_formed = Ours::refusal(&given.datagram);
        assert_eq!(well_formed, Other::refusal(&given.datagram), "round {round}: {given:?}");
        requests.note(well_formed.number);
        met.note((refusal, sent), &given, &ours);
        if refusal.number == 12 {
            differing.note(given.request(tag_of(&given)), &given.datagram);
        }
    }
    seen.exactly(0..=12);
    requests.exactly([0, 2, 3, 4, 5, 6, 7, 8, 9, 10]);
    met.all();
    differing.all();
}

/// A copy in the buffers that there are: a million rounds would pay for others.
fn copy(from: &Lent, to: &mut Lent) {
    to.memory.clone_from(&from.memory);
    to.stored.clone_from(&from.stored);
    to.kept.clone_from(&from.kept);
    to.output.clone_from(&from.output);
    to.datagram.clone_from(&from.datagram);
    to.tags = from.tags;
}

fn tag_of(lent: &Lent) -> u32 {
    u32::from(lent.datagram[0] & 15)
}

fn serve<E: Ends>(lent: &mut Lent) -> Given<usize> {
    let Lent { memory, stored, kept, output, tags, datagram } = lent;
    E::serve(memory, stored, kept, output, tags, datagram)
}

/// How often each way of being served came (new messages by how many were held, repeats by how far
/// back from the newest they are), memory was changed, a later header refused, and a request or a
/// sent answer had the limit's length.
#[derive(Default)]
struct Met {
    new: [usize; 5],
    repeats: [usize; 4],
    discoveries: usize,
    changes: usize,
    later: usize,
    full_requests: usize,
    full_answers: usize,
}

impl Met {
    fn note(&mut self, (refusal, sent): Given<usize>, before: &Lent, after: &Lent) {
        if refusal.number != 0 {
            self.later += usize::from(refusal.at != 0);
            return;
        }
        if before.datagram[0] & 0x80 != 0 {
            self.discoveries += 1;
        } else if before.tags != after.tags {
            self.new[before.tags.held as usize] += 1;
        } else {
            self.repeats[((before.tags.tag + 16 - tag_of(before)) % 16) as usize] += 1;
        }
        self.changes += usize::from(before.memory != after.memory);
        self.full_requests += usize::from(before.datagram.len() == BYTES);
        self.full_answers += usize::from(sent == BYTES);
    }

    fn all(&self) {
        let Met { new, repeats, discoveries, changes, later, full_requests, full_answers } = *self;
        let others = [discoveries, changes, later, full_requests, full_answers];
        let met = [&new[..], &repeats, &others].concat();
        println!("{met:?}");
        assert!(met.iter().all(|times| *times > 100), "{met:?}");
    }
}

/// How often a repeat that was refused 12 differed from the kept request in each of these ways
/// alone: longer by words behind the same ones, shorter so, its first byte, byte 1 of a read, its
/// last byte, a byte between.
#[derive(Default)]
struct Differing {
    longer: usize,
    shorter: usize,
    first: usize,
    byte_1_of_a_read: usize,
    last: usize,
    between: usize,
}

impl Differing {
    fn note(&mut self, request: &[u8], datagram: &[u8]) {
        let places = 0..request.len().min(datagram.len());
        let differ: Vec<usize> = places.filter(|at| request[*at] != datagram[*at]).collect();
        let reads = datagram[0] >> 4 & 3 == 2;
        let way = match differ[..] {
            [] if datagram.len() > request.len() => &mut self.longer,
            [] => &mut self.shorter,
            [_] if datagram.len() != request.len() => return,
            [0] => &mut self.first,
            [1] if reads => &mut self.byte_1_of_a_read,
            [at] if at + 1 == datagram.len() => &mut self.last,
            [_] => &mut self.between,
            _ => return,
        };
        *way += 1;
    }

    fn all(&self) {
        let Differing { longer, shorter, first, byte_1_of_a_read, last, between } = *self;
        let ways = [longer, shorter, first, byte_1_of_a_read, last, between];
        println!("{ways:?}");
        assert!(ways.iter().all(|times| *times > 100), "{ways:?}");
    }
}
