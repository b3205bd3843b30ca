//! The ordinary implementation of document 01 and of the requests that have landed, both ends,
//! without allocation. It knows nothing of the libraries; it shares the limits and the refusals'
//! names with their wrappers.

#![forbid(unsafe_code)]

pub mod answer;
pub mod builder;
pub mod controller;
pub mod message;
pub mod outcome;
pub mod sender;
pub mod table;
mod tags;

pub use builder::{Addition, Building};
pub use controller::{serve, Served};
pub use sender::Sender;
pub use tags::TagRecord;
