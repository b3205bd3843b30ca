//! The ordinary implementation: by hand, beside the slow second reading of the rules, and over
//! a bad channel.

mod beside;
mod by_hand;
mod channel;
mod common;

use common::naive_ends::Naive as Other;
use common::plain::Plain as Ours;

type Pair = channel::bare::Bare<Ours>;

const SEED: u64 = 1;
const ROUNDS: usize = 300_000;
