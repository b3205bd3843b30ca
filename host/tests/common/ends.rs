//! The calls of both ends in the form that the libraries have: any records and buffers go in,
//! the refusal (number 0 for none) and the record come out. One trait for all that implement
//! the rules, so that one test serves them all.

use charkhavo_host::limits::Rows;
use charkhavo_host::plain::table::Attempt;
use charkhavo_host::plain::{Addition, Building, Sender, TagRecord};
use charkhavo_host::Refusal;

/// What a call gives: its refusal, of number 0 for none, and the rest.
pub type Given<T> = (Refusal, T);

pub trait Ends {
    fn serve(
        memory: &mut [u32],
        stored: &mut [u32],
        kept: &mut [u8],
        output: &mut [u8],
        tags: &mut TagRecord,
        datagram: &[u8],
    ) -> Given<usize>;

    fn refusal(request: &[u8]) -> Refusal;

    fn begin(
        output: &[u8],
        building: Building,
        kind: u32,
        tag: u32,
        wide: bool,
        discovery: bool,
    ) -> Given<Building>;
    fn add(output: &mut [u8], building: Building, addition: Addition) -> Given<Building>;
    fn close(output: &mut [u8], building: Building) -> Given<Building>;

    fn discovery() -> [u8; 12];
    fn fresh() -> Sender;
    fn discovered(answer: &[u8]) -> Given<Sender>;
    fn offer(sender: Sender, request: &[u8]) -> Given<Sender>;
    /// The refusal and the length to send.
    fn send(sender: Sender, request: &[u8]) -> Given<usize>;
    /// The refusal, the sender and how many messages ended.
    fn take(sender: Sender, request: &[u8], answer: &[u8]) -> Given<(Sender, u8)>;

    fn count(request: &[u8], answer: &[u8]) -> usize;
    /// 3 for a command that is not answered.
    fn status(request: &[u8], answer: &[u8], k: usize) -> u32;
    /// Start and length, in bytes of the answer.
    fn read_data(request: &[u8], answer: &[u8], k: usize) -> (usize, usize);

    fn set_up(start: u64, room: u64) -> Refusal;
    fn attempt(sender: Sender) -> Attempt;
    /// The refusal, the length of the message and the attempt.
    fn table_message(
        output: &mut [u8],
        attempt: Attempt,
        start: u64,
        room: u64,
        rows: &Rows,
    ) -> Given<(usize, Attempt)>;
    fn table_take(attempt: Attempt, message: &[u8], answer: &[u8], rows: &Rows) -> Given<Attempt>;
}

/// The status of a command that is not answered.
pub const ABSENT: u32 = 3;
