//! The ends under test beside others, on random inputs: whatever is lent, both give and leave
//! the same. Each run counts the refusals that came, and all that the calls can give must have.

mod building;
mod controller;
mod sender;
mod table;
