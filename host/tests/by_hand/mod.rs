//! Document 01 and the requests that have landed by hand: the bench sheet, every refusal, the edges.

mod bench_sheet;
mod builder;
mod controller_edges;
mod controller_refusals;
mod four_held;
mod four_waiting;
mod restarts;
mod sender;
mod table;
mod table_ends;
