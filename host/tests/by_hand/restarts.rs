//! What a loader that restarts makes of the answers to discoveries: its own, and a stranger's.

use crate::common::{bytes_of, of, Bench, Ends};
use crate::Ours;
use charkhavo_host::plain::Sender;
use charkhavo_host::Refusal;

/// What the loader makes of the answer to a discovery, where it takes it for its own.
fn heard(bench: &mut Bench, discovery: &[u32]) -> (Refusal, Sender) {
    Ours::discovered(&bytes_of(&bench.give(discovery).expect("an answer")))
}

/// A read of two words with tag 0 has the header of the fixed discovery's answer, and memory's words
/// where the advertisement's stand: word 1, 15 (hexadecimal), is taken for tag 5. So a loader pairs
/// the answer with its own discovery, and all others' discoveries have another tag than 0.
#[test]
fn a_strangers_read_with_tag_0_misleads_and_with_tag_1_is_33() {
    let mut fresh = Bench::new(vec![0, 0x15]);
    assert_eq!(heard(&mut fresh, &[0x8002_00A0, 0]), (of(0), Sender::idle(6)));
    assert_eq!(heard(&mut fresh, &[0x8002_00A1, 0]), (of(33), Sender::idle(16)));
    assert_eq!(heard(&mut fresh, &[0x8002_0080, 0, 0]), (of(0), Sender::idle(0)), "its own");
    assert_eq!(fresh.give(&[0x8001_0F16, 0, 7]), Err(of(11)), "out of step");
}

/// Whatever a discovery of another tag than 0 asks, its answer makes no sender.
#[test]
fn the_answer_to_a_discovery_of_any_other_tag_is_33() {
    for tag in 1..16 {
        let discoveries: [&[u32]; 7] = [
            &[0x8000_0080],
            &[0x8002_0080, 0, 0],
            &[0x8002_00A0, 0],
            &[0x8002_00E0, 0, 0],
            &[0x0002_00A0, 0, 0x8001_00A0, 4],
            &[0x8002_00A0, 0xFFFF_FFFC],
            &[0x8001_0F90, 4, 7],
        ];
        for words in discoveries {
            let mut discovery = words.to_vec();
            discovery[0] |= tag;
            if words.len() == 4 {
                discovery[2] |= tag;
            }
            let mut bench = Bench::with_tag(5);
            assert_eq!(heard(&mut bench, &discovery), (of(33), Sender::idle(16)), "{discovery:X?}");
        }
    }
}
