//! Charkhavo's two static libraries for programs in Rust, and an ordinary implementation of the
//! same rules (document 01 and the requests that have landed) to compare them with.
//!
//! The libraries' wrappers: `controller`, `builder`, `sender`, `outcome` and `table` are the ends as a
//! program holds them; `refusal` is the error of each call; `ffi`, below them, has one function
//! for each of the libraries', for any records and buffers.
//!
//! ```
//! # use charkhavo_host::builder::{Builder, Enables, Head, Write};
//! # use charkhavo_host::{Controller, Refusal, Sender, Status};
//! # fn main() -> Result<(), Refusal> {
//! # let (mut controller, mut sender, mut memory) = (Controller::fresh(), Sender::fresh(), [0; 10]);
//! // Up to four messages wait.
//! for number in [7, 8, 9] {
//!     let head = Head { tag: sender.new_tag(), wide: false, discovery: false };
//!     let mut builder = Builder::<Write>::begin(head)?;
//!     builder.write(4 * number, Enables::whole(1), &[number as u32])?;
//!     sender.offer(builder.close()?)?;
//! }
//! // What `send` gives goes to the controller, again and again until an answer is taken.
//! for tag in sender.unanswered() {
//!     let answer = controller.serve(&mut memory, sender.send(tag)?)?;
//!     for outcome in sender.take(answer)? {
//!         assert_eq!(outcome.status(0), Some(Status::Ok));
//!     }
//! }
//! assert_eq!((sender.waiting(), &memory[7..]), (0, &[7, 8, 9][..]));
//! # Ok(())
//! # }
//! ```
//!
//! For comparison: `plain` is the ordinary implementation, the oracle and the yardstick of the
//! proved code. `random` makes inputs, always the same ones from the same seed. `timed` times
//! controllers alike.

#![deny(unsafe_code)]

pub mod builder;
pub mod controller;
pub mod ffi;
pub mod limits;
pub mod outcome;
pub mod plain;
pub mod random;
pub mod refusal;
pub mod sender;
pub mod table;
pub mod timed;

pub use builder::Builder;
pub use controller::Controller;
pub use outcome::{Outcome, Status};
pub use refusal::Refusal;
pub use sender::Sender;
