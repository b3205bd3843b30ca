//! Times controllers alike: the same datagrams, the same buffers at the same addresses, filled
//! the same way before each round, rounds of all interleaved, the median of each taken.

use crate::limits::{BYTES, KEPT, PLACES, STORED, WORDS};
use crate::plain::message::Header;
use crate::random::{bytes_of, Random};
use crate::{ffi, plain};
use std::hint::black_box;
use std::time::Instant;

/// A controller as the harness calls it.
pub trait Controller {
    const NAME: &'static str;
    /// An earlier one may do another thing, as under another limit, and is not timed where it does.
    /// It stores and keeps in its own way, so what it leaves of that is not looked at.
    const EARLIER: bool = false;
    type Record;

    fn fresh() -> Self::Record;

    /// Gives the refusal's number and the length sent.
    fn serve(
        memory: &mut [u32],
        stored: &mut [u32],
        kept: &mut [u8],
        output: &mut [u8],
        tags: &mut Self::Record,
        datagram: &[u8],
    ) -> (u32, usize);
}

/// The proved controller, straight through its library.
pub struct Proved;

impl Controller for Proved {
    const NAME: &'static str = "proved";
    type Record = ffi::TagRecord;

    fn fresh() -> ffi::TagRecord {
        ffi::TagRecord::FRESH
    }

    #[inline(always)]
    fn serve(
        memory: &mut [u32],
        stored: &mut [u32],
        kept: &mut [u8],
        output: &mut [u8],
        tags: &mut ffi::TagRecord,
        datagram: &[u8],
    ) -> (u32, usize) {
        let served = ffi::serve(memory, stored, kept, output, tags, datagram);
        (served.refusal.number, served.sent)
    }
}

/// An earlier proved controller, where the build was given one.
#[cfg(feature = "before")]
pub struct Before;

#[cfg(feature = "before")]
impl Controller for Before {
    const NAME: &'static str = "before";
    const EARLIER: bool = true;
    type Record = ffi::before::TagRecord;

    fn fresh() -> ffi::before::TagRecord {
        ffi::before::fresh()
    }

    #[inline(always)]
    fn serve(
        memory: &mut [u32],
        stored: &mut [u32],
        kept: &mut [u8],
        output: &mut [u8],
        tags: &mut ffi::before::TagRecord,
        datagram: &[u8],
    ) -> (u32, usize) {
        let served = ffi::before::serve(memory, stored, kept, output, tags, datagram);
        (served.refusal.number, served.sent)
    }
}

/// The ordinary controller of `plain`.
pub struct Plain;

impl Controller for Plain {
    const NAME: &'static str = "plain";
    type Record = plain::TagRecord;

    fn fresh() -> plain::TagRecord {
        plain::TagRecord::fresh()
    }

    #[inline(always)]
    fn serve(
        memory: &mut [u32],
        stored: &mut [u32],
        kept: &mut [u8],
        output: &mut [u8],
        tags: &mut plain::TagRecord,
        datagram: &[u8],
    ) -> (u32, usize) {
        let served = plain::serve(memory, stored, kept, output, tags, datagram);
        (served.refusal.number, served.sent)
    }
}

/// What is timed: these datagrams, over and over, after others that come once to a fresh record.
pub struct Case {
    pub name: String,
    first: Vec<Vec<u8>>,
    datagrams: Vec<Vec<u8>>,
}

/// Words of memory that the timed controllers serve.
const MEMORY: usize = 1024;

/// Words of a datagram in an ordinary frame, of 1,500 bytes.
const ORDINARY: usize = 368;

/// All cases of the measurement: short messages, then those that fill an ordinary frame, then
/// those of the limit.
pub fn cases() -> Vec<Case> {
    let mut cases = vec![
        tags("write of 1 word", |tag| writes(tag, 1, 1, || 0x0F)),
        tags("read of 1 word", |tag| read(tag, 1)),
        tags("write of 1 word, 2 bytes enabled", |tag| writes(tag, 1, 1, || 0x06)),
        tags("write of 2 words, 3 bytes enabled", |tag| writes(tag, 1, 2, || 0x1C)),
        discovery("discovery (a NOP of 2 words)", 0),
        discovery("discovery, four held", PLACES),
    ];
    cases.extend(filling(ORDINARY));
    cases.extend(filling(WORDS));
    cases
}

/// Messages of so many words, or whose answer has so many, or a few less.
fn filling(words: usize) -> Vec<Case> {
    let (many, pairs) = (words / 3, words / 4);
    let written =
        tags(&format!("write of {} words", words - 2), |tag| writes(tag, 1, words - 2, || 0xFF));
    let read = tags(&format!("read of {} words", words - 1), |tag| read(tag, words - 1));
    let (read_again, written_again) = (repeats(&read), repeats(&written));
    let fourth_last = repeats_of_fourth_last(&read);
    vec![
        tags(&format!("{many} writes of 1 word"), |tag| writes(tag, many, 1, || 0x0F)),
        tags(&format!("{pairs} writes of 2 words"), |tag| writes(tag, pairs, 2, || 0xFF)),
        written,
        read,
        read_again,
        fourth_last,
        written_again,
        tags(&format!("{many} writes of 1 word, 2 bytes enabled"), |tag| {
            writes(tag, many, 1, || 0x06)
        }),
        tags(&format!("{many} writes of 1 word, every second so"), |tag| {
            let mut turns = [0x0F, 0x06].into_iter().cycle();
            writes(tag, many, 1, || turns.next().unwrap())
        }),
        tags(&format!("{many} writes of 1 word, half so by chance"), |tag| {
            let mut random = Random::new(tag.into());
            writes(tag, many, 1, || random.pick(&[0x0F, 0x06]))
        }),
    ]
}

/// A case of sixteen datagrams, one for each tag, so that each is new after the one before.
fn tags(name: &str, datagram: impl Fn(u32) -> Vec<u8>) -> Case {
    Case { name: name.into(), first: Vec::new(), datagrams: (0..16).map(datagram).collect() }
}

/// The fixed discovery, with so many messages held.
fn discovery(name: &str, held: usize) -> Case {
    let first = (0..held as u32).map(|tag| read(tag, 1)).collect();
    Case { first, ..tags(name, |_| plain::sender::DISCOVERY.to_vec()) }
}

/// The first datagram of a case alone, so that all but the first of them are repeats.
fn repeats(of: &Case) -> Case {
    let (name, datagrams) = (format!("repeat of a {}", of.name), of.datagrams[..1].to_vec());
    Case { name, first: Vec::new(), datagrams }
}

/// The same, with three newer messages held beside it.
fn repeats_of_fourth_last(of: &Case) -> Case {
    let repeats = repeats(of);
    let (name, first) = (format!("{}, 4th last", repeats.name), of.datagrams[..PLACES].to_vec());
    Case { name, first, ..repeats }
}

/// A message of some writes, each to a place of its own, its enables (byte 1 of the
/// header) asked for.
fn writes(tag: u32, commands: usize, count: usize, mut enables: impl FnMut() -> u32) -> Vec<u8> {
    let mut words = Vec::new();
    for command in 0..commands {
        let ends = if command + 1 == commands { Header::LAST } else { 0 };
        words.push(Header::new(tag | 1 << 4, enables(), count).0 | ends);
        words.push(4 * (tag + (7 * command % (MEMORY / 2)) as u32));
        words.extend((0..count as u32).map(|word| 0x0101_0101 * (tag + word)));
    }
    bytes_of(&words)
}

fn read(tag: u32, count: usize) -> Vec<u8> {
    bytes_of(&[Header::new(tag | 2 << 4, 0, count).0 | Header::LAST, 4 * tag])
}

/// The buffers, one set for all controllers.
#[derive(Clone)]
struct Buffers {
    memory: Vec<u32>,
    stored: Vec<u32>,
    kept: Vec<u8>,
    output: Vec<u8>,
}

impl Buffers {
    fn new() -> Buffers {
        let memory = vec![0; MEMORY.max(WORDS + 16)];
        Buffers { memory, stored: vec![0; STORED], kept: vec![0; KEPT], output: vec![0; BYTES] }
    }

    fn refill(&mut self) {
        for (place, word) in self.memory.iter_mut().enumerate() {
            *word = 0x9E37_79B9_u32.wrapping_mul(place as u32);
        }
        self.stored.fill(0);
        self.kept.fill(0);
        self.output.fill(0);
    }

    /// Whether a controller has left the same contents as ours; what an earlier one stores and keeps
    /// is not looked at.
    fn same(&self, ours: &Buffers, earlier: bool) -> bool {
        self.memory == ours.memory
            && self.output == ours.output
            && (earlier || (self.stored == ours.stored && self.kept == ours.kept))
    }
}

/// A controller's round: so many messages of a case, in nanoseconds a message.
type Round = fn(&Case, &mut Buffers, usize) -> f64;

/// A controller to be timed.
pub struct Timed {
    pub name: &'static str,
    earlier: bool,
    timed: fn(&Case, &mut Buffers) -> bool,
    round: Round,
}

impl Timed {
    fn new<C: Controller>() -> Timed {
        Timed { name: C::NAME, earlier: C::EARLIER, timed: timed::<C>, round: round::<C> }
    }
}

/// The controllers of the measurement, ours first.
pub fn controllers() -> Vec<Timed> {
    vec![
        Timed::new::<Proved>(),
        Timed::new::<Plain>(),
        #[cfg(feature = "before")]
        Timed::new::<Before>(),
    ]
}

/// Times controllers beside each other, each going first in its turn; gives their medians, none
/// for an earlier one that does another thing.
pub fn compare(
    case: &Case,
    controllers: &[Timed],
    rounds: usize,
    messages: usize,
) -> Vec<Option<f64>> {
    let mut buffers = Buffers::new();
    let mut times = vec![Vec::new(); controllers.len()];
    let timed: Vec<bool> = controllers.iter().map(|c| (c.timed)(case, &mut buffers)).collect();
    for number in 0..rounds {
        // Ours goes first in these rounds.
        let compared = number % controllers.len() == 0;
        let mut ours = None;
        for turn in 0..controllers.len() {
            let which = (number + turn) % controllers.len();
            if !timed[which] {
                continue;
            }
            times[which].push((controllers[which].round)(case, &mut buffers, messages));
            if compared {
                let Timed { name, earlier, .. } = controllers[which];
                let ours = ours.get_or_insert_with(|| buffers.clone());
                assert!(buffers.same(ours, earlier), "{}: {name} does another thing", case.name);
            }
        }
    }
    times.into_iter().map(median).collect()
}

/// Whether a case is timed: always, but for an earlier controller that does another thing.
fn timed<C: Controller>(case: &Case, buffers: &mut Buffers) -> bool {
    if !C::EARLIER {
        return true;
    }
    let ours = twice::<Proved>(case, buffers);
    let left = buffers.clone();
    twice::<C>(case, buffers) == ours && buffers.same(&left, C::EARLIER)
}

/// Two passes over refilled buffers, so that what is repeated is; 0 if nothing was refused.
fn twice<C: Controller>(case: &Case, buffers: &mut Buffers) -> u32 {
    buffers.refill();
    let mut tags = C::fresh();
    let refused = play::<C>(&case.first, buffers, &mut tags, 1);
    refused | play::<C>(&case.datagrams, buffers, &mut tags, 2)
}

/// One round; gives nanoseconds a message.
fn round<C: Controller>(case: &Case, buffers: &mut Buffers, messages: usize) -> f64 {
    buffers.refill();
    let mut tags = C::fresh();
    let passes = messages.div_ceil(case.datagrams.len());
    let mut refused = play::<C>(&case.first, buffers, &mut tags, 1);
    refused |= play::<C>(&case.datagrams, buffers, &mut tags, passes.min(4));
    let start = Instant::now();
    refused |= play::<C>(&case.datagrams, buffers, &mut tags, passes);
    let spent = start.elapsed();
    assert!(refused == 0, "{}: {} refused {}", case.name, C::NAME, refused);
    spent.as_nanos() as f64 / (passes * case.datagrams.len()) as f64
}

/// Serves the datagrams so many times over; 0 if none was refused.
#[inline(never)]
fn play<C: Controller>(
    datagrams: &[Vec<u8>],
    buffers: &mut Buffers,
    tags: &mut C::Record,
    passes: usize,
) -> u32 {
    let mut refused = 0;
    for _ in 0..passes {
        for datagram in datagrams {
            let datagram = black_box(datagram.as_slice());
            let Buffers { memory, stored, kept, output } = &mut *buffers;
            let (refusal, sent) = C::serve(memory, stored, kept, output, tags, datagram);
            black_box((sent, &output[..]));
            refused |= refusal;
        }
    }
    refused
}

fn median(mut times: Vec<f64>) -> Option<f64> {
    times.sort_by(f64::total_cmp);
    times.get(times.len() / 2).copied()
}
