//! The libraries: by hand, beside the ordinary implementation, and, through their wrappers, over
//! a bad channel.

mod beside;
mod by_hand;
mod channel;
mod common;

use common::library::Library as Ours;
use common::plain::Plain as Other;

type Pair = channel::wrapped::Wrapped;

const SEED: u64 = 11;
const ROUNDS: usize = 1_000_000;
