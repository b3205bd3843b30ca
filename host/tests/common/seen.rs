//! What came in a run of random calls: a run that never meets a case must not pass.

use std::collections::BTreeMap;

/// How often each number came.
#[derive(Default)]
pub struct Seen(BTreeMap<u32, usize>);

impl Seen {
    pub fn note(&mut self, number: u32) {
        *self.0.entry(number).or_default() += 1;
    }

    pub fn add(&mut self, other: Seen) {
        for (number, times) in other.0 {
            *self.0.entry(number).or_default() += times;
        }
    }

    /// Each of these came, and often; no other did.
    pub fn exactly(&self, numbers: impl IntoIterator<Item = u32>) {
        println!("{:?}", self.0);
        let numbers: Vec<u32> = numbers.into_iter().collect();
        for number in &numbers {
            let seen = self.0.get(number).copied().unwrap_or(0);
            assert!(seen >= 50, "{number} came {seen} times: the inputs do not reach it");
        }
        assert!(self.0.keys().all(|number| numbers.contains(number)), "{:?}", self.0);
    }
}
