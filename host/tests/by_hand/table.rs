//! The training table by hand: the bytes of its four messages, and each refusal of one from both
//! sides.

use crate::common::{bytes_of, of, words_of, Bench, Ends};
use crate::Ours;
use charkhavo_host::limits::{Rows, BYTES};
use charkhavo_host::plain::table::Attempt;
use charkhavo_host::plain::Sender;
use charkhavo_host::Refusal;

/// Word w of row r is r in its second byte and w in its first.
pub fn rows() -> Rows {
    let mut rows = [[0; 7]; 24];
    for (r, row) in (1..).zip(&mut rows) {
        *row = [1, 2, 3, 4, 5, 6, 7].map(|w| r << 8 | w);
    }
    rows
}

// The four messages, tag 5, from 40 (hexadecimal) on.
const CLEAR: [u32; 3] = [0x8001_0F15, 0x0000_0340, 0x0000_0000];
#[rustfmt::skip]
pub const WRITES: [[u32; 10]; 24] = [
    [0x0008_FF15, 0x040, 1, 0x101, 0x102, 0x103, 0x104, 0x105, 0x106, 0x107],
    [0x0008_FF15, 0x060, 2, 0x201, 0x202, 0x203, 0x204, 0x205, 0x206, 0x207],
    [0x0008_FF15, 0x080, 3, 0x301, 0x302, 0x303, 0x304, 0x305, 0x306, 0x307],
    [0x0008_FF15, 0x0A0, 4, 0x401, 0x402, 0x403, 0x404, 0x405, 0x406, 0x407],
    [0x0008_FF15, 0x0C0, 5, 0x501, 0x502, 0x503, 0x504, 0x505, 0x506, 0x507],
    [0x0008_FF15, 0x0E0, 6, 0x601, 0x602, 0x603, 0x604, 0x605, 0x606, 0x607],
    [0x0008_FF15, 0x100, 7, 0x701, 0x702, 0x703, 0x704, 0x705, 0x706, 0x707],
    [0x0008_FF15, 0x120, 8, 0x801, 0x802, 0x803, 0x804, 0x805, 0x806, 0x807],
    [0x0008_FF15, 0x140, 9, 0x901, 0x902, 0x903, 0x904, 0x905, 0x906, 0x907],
    [0x0008_FF15, 0x160, 10, 0xA01, 0xA02, 0xA03, 0xA04, 0xA05, 0xA06, 0xA07],
    [0x0008_FF15, 0x180, 11, 0xB01, 0xB02, 0xB03, 0xB04, 0xB05, 0xB06, 0xB07],
    [0x0008_FF15, 0x1A0, 12, 0xC01, 0xC02, 0xC03, 0xC04, 0xC05, 0xC06, 0xC07],
    [0x0008_FF15, 0x1C0, 13, 0xD01, 0xD02, 0xD03, 0xD04, 0xD05, 0xD06, 0xD07],
    [0x0008_FF15, 0x1E0, 14, 0xE01, 0xE02, 0xE03, 0xE04, 0xE05, 0xE06, 0xE07],
    [0x0008_FF15, 0x200, 15, 0xF01, 0xF02, 0xF03, 0xF04, 0xF05, 0xF06, 0xF07],
    [0x0008_FF15, 0x220, 16, 0x1001, 0x1002, 0x1003, 0x1004, 0x1005, 0x1006, 0x1007],
    [0x0008_FF15, 0x240, 17, 0x1101, 0x1102, 0x1103, 0x1104, 0x1105, 0x1106, 0x1107],
    [0x0008_FF15, 0x260, 18, 0x1201, 0x1202, 0x1203, 0x1204, 0x1205, 0x1206, 0x1207],
    [0x0008_FF15, 0x280, 19, 0x1301, 0x1302, 0x1303, 0x1304, 0x1305, 0x1306, 0x1307],
    [0x0008_FF15, 0x2A0, 20, 0x1401, 0x1402, 0x1403, 0x1404, 0x1405, 0x1406, 0x1407],
    [0x0008_FF15, 0x2C0, 21, 0x1501, 0x1502, 0x1503, 0x1504, 0x1505, 0x1506, 0x1507],
    [0x0008_FF15, 0x2E0, 22, 0x1601, 0x1602, 0x1603, 0x1604, 0x1605, 0x1606, 0x1607],
    [0x0008_FF15, 0x300, 23, 0x1701, 0x1702, 0x1703, 0x1704, 0x1705, 0x1706, 0x1707],
    [0x8008_FF15, 0x320, 24, 0x1801, 0x1802, 0x1803, 0x1804, 0x1805, 0x1806, 0x1807],
];
#[rustfmt::skip]
pub const READS: [[u32; 2]; 24] = [
    [0x0008_0025, 0x040], [0x0008_0025, 0x060], [0x0008_0025, 0x080], [0x0008_0025, 0x0A0],
    [0x0008_0025, 0x0C0], [0x0008_0025, 0x0E0], [0x0008_0025, 0x100], [0x0008_0025, 0x120],
    [0x0008_0025, 0x140], [0x0008_0025, 0x160], [0x0008_0025, 0x180], [0x0008_0025, 0x1A0],
    [0x0008_0025, 0x1C0], [0x0008_0025, 0x1E0], [0x0008_0025, 0x200], [0x0008_0025, 0x220],
    [0x0008_0025, 0x240], [0x0008_0025, 0x260], [0x0008_0025, 0x280], [0x0008_0025, 0x2A0],
    [0x0008_0025, 0x2C0], [0x0008_0025, 0x2E0], [0x0008_0025, 0x300], [0x8008_0025, 0x320],
];
const MARK: [u32; 3] = [0x8001_0F15, 0x0000_0340, 0x0000_0018];

/// The words of a stage's message.
pub fn words(stage: u8) -> Vec<u32> {
    match stage {
        0 => CLEAR.to_vec(),
        1 => WRITES.concat(),
        2 => READS.concat(),
        _ => MARK.to_vec(),
    }
}

/// An attempt that comes to this stage with tag 5 next, and one whose message waits.
fn comes_to(stage: u8) -> Attempt {
    Attempt { sender: Sender::idle(5), stage, row: 0 }
}

pub fn waits(stage: u8) -> Attempt {
    Attempt { sender: Sender { waiting: 1, ..Sender::idle(5) }, stage, row: 0 }
}

/// What a message is refused with. Then the output and all that the attempt says stay.
fn refused(length: usize, attempt: Attempt, start: u64, room: u64) -> Refusal {
    let mut output = vec![0x77; length];
    let (refusal, made) = Ours::table_message(&mut output, attempt, start, room, &rows());
    if refusal != of(0) {
        assert_eq!((made, output), ((0, attempt), vec![0x77; length]));
    }
    refusal
}

#[test]
fn the_four_messages() {
    assert_eq!(Ours::attempt(Sender::idle(5)), comes_to(0));
    for (stage, length) in [(0, 12), (1, 960), (2, 192), (3, 12)] {
        let mut output = vec![0x77; BYTES + 3];
        let made = Ours::table_message(&mut output, comes_to(stage), 0x40, 193, &rows());
        assert_eq!(made, (of(0), (length, waits(stage))), "stage {stage}");
        assert_eq!(words_of(&output[..length]), words(stage), "stage {stage}");
        assert!(output[length..].iter().all(|byte| *byte == 0x77));
    }
}

/// What the record says of messages that do not wait, and of a row, is not looked at.
#[test]
fn a_message_has_the_senders_next_tag() {
    for next in 0..16 {
        let sender = Sender { answered: [true; 3], ..Sender::idle(next) };
        let attempt = Attempt { sender, stage: 0, row: 9 };
        let mut output = vec![0; BYTES];
        let (refusal, made) = Ours::table_message(&mut output, attempt, 0x40, 193, &rows());
        let waits = Sender { waiting: 1, ..Sender::idle(next) };
        assert_eq!((refusal, made), (of(0), (12, Attempt { sender: waits, stage: 0, row: 0 })));
        assert_eq!(words_of(&output[..12]), [0x8001_0F10 | u32::from(next), 0x340, 0]);
    }
}

#[test]
fn refusal_40() {
    const TOP: u64 = 1 << 32;
    let allowed = [(0, 193), (4, 193), (TOP - 772, 193), (TOP - 776, 194), (0, TOP / 4), (8, 1000)];
    for (start, room) in allowed {
        assert_eq!(Ours::set_up(start, room), of(0), "{start:#X} {room}");
        assert_eq!(refused(BYTES, comes_to(0), start, room), of(0), "{start:#X} {room}");
    }
    let forbidden = [
        (0, 192),
        (0, 0),
        (1, 193),
        (2, 193),
        (3, 193),
        (TOP - 768, 193),
        (TOP - 772, 194),
        (4, TOP / 4),
        (0, TOP / 4 + 1),
        (0, 1 << 62),
        (TOP, 193),
        (u64::MAX - 3, 193),
        (u64::MAX - 771, 193),
        (0, u64::MAX),
    ];
    for (start, room) in forbidden {
        assert_eq!(Ours::set_up(start, room), of(40), "{start:#X} {room}");
        assert_eq!(refused(BYTES, comes_to(0), start, room), of(40), "{start:#X} {room}");
    }
}

#[test]
fn refusals_of_a_message_and_their_order() {
    let message = |attempt| refused(BYTES, attempt, 0x40, 193);
    for stage in [4, 5, 6, 255] {
        assert_eq!(message(Attempt { row: 7, ..comes_to(stage) }), of(30), "stage {stage}");
    }
    let sender = |next, waiting| {
        let sender = Sender { next, waiting, answered: [true, false, true] };
        Attempt { sender, ..comes_to(3) }
    };
    assert_eq!([15, 16, 255].map(|next| message(sender(next, 0))), [of(0), of(37), of(37)]);
    assert_eq!([0, 1, 4, 5].map(|many| message(sender(0, many))), [of(0), of(36), of(36), of(37)]);
    assert_eq!(refused(BYTES - 1, comes_to(1), 0x40, 193), of(21));
    let ended = Attempt { stage: 9, row: 1, ..sender(16, 1) };
    assert_eq!(refused(0, ended, 2, 193), of(40), "40 before 37");
    assert_eq!(refused(0, ended, 0, 193), of(37), "37 before 36");
    assert_eq!(
        refused(0, Attempt { stage: 9, row: 1, ..sender(5, 1) }, 0, 193),
        of(36),
        "36 before 30"
    );
    assert_eq!(refused(0, Attempt { stage: 4, ..sender(5, 0) }, 0, 193), of(30), "30 before 21");
}

/// An attempt that begins with a sender at which something waits is stopped.
#[test]
fn begun_while_one_waits() {
    let waits = Sender { waiting: 1, ..Sender::idle(5) };
    let stopped = Ours::attempt(waits);
    assert_eq!(stopped, Attempt { sender: Sender::idle(16), stage: 0, row: 0 });
    assert_eq!(refused(BYTES, stopped, 0x40, 193), of(37));
    assert_eq!(
        Ours::attempt(Sender::idle(5)),
        Attempt { sender: Sender::idle(5), stage: 0, row: 0 }
    );
}

/// A table loaded from end to end, each message served by a controller whose newest tag is 4.
#[test]
fn from_the_first_message_to_the_last() {
    let mut bench = Bench { tags: Bench::with_tag(4).tags, ..Bench::new(vec![0xAAAA_AAAA; 240]) };
    let mut attempt = Ours::attempt(Sender::idle(5));
    let mut output = vec![0; BYTES];
    for (stage, mark) in [(0, 0), (1, 0), (2, 0), (3, 24)] {
        assert_eq!(attempt.stage, stage);
        let (refusal, made) = Ours::table_message(&mut output, attempt, 0x40, 193, &rows());
        assert_eq!(refusal, of(0));
        let message = &output[..made.0];
        let answer = bytes_of(&bench.give_bytes(message).expect("an answer"));
        let (refusal, after) = Ours::table_take(made.1, message, &answer, &rows());
        assert_eq!((refusal, bench.memory[0xD0]), (of(0), mark), "stage {stage}");
        attempt = after;
    }
    assert_eq!(attempt, Attempt { sender: Sender::idle(9), stage: 4, row: 0 });
    assert_eq!(bench.memory[16..208], WRITES.map(|write| write[2..].to_vec()).concat());
    assert!(bench.memory[..16].iter().chain(&bench.memory[209..]).all(|word| *word == 0xAAAA_AAAA));
}
