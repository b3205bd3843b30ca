//! The limits of document 01 and of requests [6], [9] and [13], named here alone: for the wrappers,
//! which lend buffers of these lengths, and for the ordinary implementation.

/// The most words a message or an answer has.
pub const WORDS: usize = 2_243;
/// The same limit in bytes: a datagram's, the output's, and advertisement word 0.
pub const BYTES: usize = 4 * WORDS;
/// The most words of memory; the least is 1.
pub const MEMORY: usize = 16_384;
/// The most messages that a controller holds, and that wait at a sender. A message's place is its tag
/// modulo this.
pub const PLACES: usize = 4;
/// The least words of the stored answers; each place has `WORDS` of them.
pub const STORED: usize = PLACES * WORDS;
/// The least bytes of the kept requests; each place has `BYTES` of them.
pub const KEPT: usize = PLACES * BYTES;
/// The rows of a training table, and the words of each.
pub const ROWS: usize = 24;
pub const ROW: usize = 8;
/// The words of a training table: its rows, and the mark behind them.
pub const TABLE: usize = ROWS * ROW + 1;
/// The words of a training table that the caller has: of each row all but the first, its number.
pub type Rows = [[u32; ROW - 1]; ROWS];
