//! The training table's calls, for any attempts, set-ups, rows, outputs and answers.

use crate::common::seen::Seen;
use crate::common::Ends;
use crate::{Other, Ours, ROUNDS, SEED};
use charkhavo_host::plain::table::Attempt;
use charkhavo_host::random::table::{making, set_up, taking, Making, Taking};
use charkhavo_host::random::Random;

#[test]
fn table_set_ups() {
    let mut random = Random::new(SEED + 4);
    let mut seen = Seen::default();
    for round in 0..ROUNDS {
        let (start, room) = set_up(&mut random);
        let refusal = Ours::set_up(start, room);
        assert_eq!(refusal, Other::set_up(start, room), "round {round}: {start:#X} {room}");
        seen.note(refusal.number);
    }
    seen.exactly([0, 40]);
}

#[test]
fn table_messages() {
    let mut random = Random::new(SEED + 5);
    let (mut seen, mut stages) = (Seen::default(), Seen::default());
    for round in 0..ROUNDS / 4 {
        let mut given = making(&mut random);
        let Making { output, attempt, start, room, rows } = &mut given;
        let (attempt, start, room) = (*attempt, *start, *room);
        let mut other = output.clone();
        let made = Ours::table_message(output, attempt, start, room, rows);
        let others = Other::table_message(&mut other, attempt, start, room, rows);
        assert_eq!(made, others, "round {round}: {attempt:?} {start:#X} {room}");
        assert!(*output == other, "round {round}: {attempt:?} {start:#X} {room}");
        let (refusal, (length, after)) = made;
        seen.note(refusal.number);
        if refusal.number == 0 {
            stages.note(attempt.stage.into());
        } else {
            assert_eq!((length, after), (0, attempt), "all seven bytes");
        }
        assert_eq!(Ours::attempt(attempt.sender), Other::attempt(attempt.sender));
    }
    seen.exactly([0, 21, 30, 36, 37, 40]);
    stages.exactly(0..=3);
}

#[test]
fn table_answers() {
    let mut random = Random::new(SEED + 6);
    let (mut seen, mut on, mut ended) = (Seen::default(), Seen::default(), Seen::default());
    for round in 0..ROUNDS {
        let given = taking(&mut random);
        let Taking { attempt, message, answer, rows } = &given;
        let taken = Ours::table_take(*attempt, message, answer, rows);
        let others = Other::table_take(*attempt, message, answer, rows);
        assert_eq!(taken, others, "round {round}: {given:?}");
        let (refusal, Attempt { stage, row, .. }) = taken;
        seen.note(refusal.number);
        match (refusal.number, attempt.stage) {
            (0, 0..=3) if stage == 5 => ended.note(100 * u32::from(attempt.stage) + u32::from(row)),
            (0, before) => on.note(10 * u32::from(before.min(5)) + u32::from(stage)),
            _ => assert_eq!(taken.1, *attempt, "all seven bytes"),
        }
    }
    seen.exactly([0, 30, 31, 32, 33, 34, 35, 37]);
    on.exactly([1, 12, 23, 34, 44, 55]);
    // The mark by clearing and by setting; every row by writing and by reading.
    ended.exactly([25].into_iter().chain(101..=124).chain(201..=224).chain([325]));
}
