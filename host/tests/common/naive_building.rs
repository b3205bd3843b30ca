//! Building once more: what sequences of calls give, found by following them.

use super::naive::enables_allowed;
use charkhavo_host::limits::WORDS;
use charkhavo_host::plain::Building;

/// For one kind and mode: which (words, answer) some additions give.
pub struct Sequences {
    kind: u32,
    fixed: usize,
    /// At `words * (WORDS + 1) + answer`.
    given: Vec<bool>,
    /// For reads and writes: whether one of the shorter ones is given, see `last_fits`.
    shorter: Vec<bool>,
}

impl Sequences {
    pub fn all() -> Vec<Sequences> {
        (0..6).map(|k| Sequences::follow(k / 2, k % 2 == 1)).collect()
    }

    /// Goes from fewer words to more; each command has at least one.
    fn follow(kind: u32, wide: bool) -> Sequences {
        let empty = vec![false; (WORDS + 1) * (WORDS + 1)];
        let fixed = if wide { 3 } else { 2 };
        let mut found = Sequences { kind, fixed, given: empty.clone(), shorter: empty };
        for words in 0..=WORDS {
            for answer in 0..=WORDS {
                let at = words * (WORDS + 1) + answer;
                found.given[at] = (words, answer) == (0, 0) || found.one_more(words, answer);
                found.shorter[at] = found.given[at]
                    || match kind {
                        1 => words > 0 && found.shorter[at - (WORDS + 1)],
                        2 => answer > 0 && found.shorter[at - 1],
                        _ => false,
                    };
            }
        }
        found
    }

    fn at(&self, table: &[bool], words: Option<usize>, answer: Option<usize>) -> bool {
        match (words, answer) {
            (Some(words), Some(answer)) if words <= WORDS && answer <= WORDS => {
                table[words * (WORDS + 1) + answer]
            }
            _ => false,
        }
    }

    /// Whether some command ends here, after something given before.
    fn one_more(&self, words: usize, answer: usize) -> bool {
        match self.kind {
            0 => (1..=3).any(|size| {
                self.at(&self.given, words.checked_sub(size), answer.checked_sub(size))
            }),
            1 => {
                let before = words.checked_sub(self.fixed + 1);
                self.at(&self.shorter, before, answer.checked_sub(1))
            }
            _ => {
                let before = words.checked_sub(self.fixed);
                self.at(&self.shorter, before, answer.checked_sub(2))
            }
        }
    }

    /// Whether a command of the words from `last` on ends here, after something given before.
    fn last_fits(&self, words: usize, last: usize, answer: usize) -> bool {
        let size = words - last;
        let before = Some(last);
        match self.kind {
            0 => size <= 3 && self.at(&self.given, before, answer.checked_sub(size)),
            1 => size > self.fixed && self.at(&self.given, before, answer.checked_sub(1)),
            _ => size == self.fixed && self.at(&self.shorter, before, answer.checked_sub(2)),
        }
    }

    pub fn give(&self, words: usize, last: usize, answer: usize, closed: bool) -> bool {
        if (words, last, answer, closed) == (0, 0, 0, false) {
            return true;
        }
        words <= WORDS && answer <= WORDS && last < words && self.last_fits(words, last, answer)
    }
}

/// 21 for any call upon this record.
pub fn refused_21(sequences: &[Sequences], output: &[u8], record: &Building) -> bool {
    if output.len() < 4 * WORDS || record.kind > 2 || record.tag > 15 {
        return true;
    }
    let sequences = &sequences[2 * record.kind as usize + usize::from(record.wide)];
    !sequences.give(record.words, record.last, record.answer, record.closed)
}

/// The words of a command to be added, or its refusal 23 to 26, for a record that is open.
pub fn added(
    record: &Building,
    address: u64,
    (first, last): (u32, u32),
    count: usize,
    data: &[u32],
) -> Result<Vec<u32>, u32> {
    let count = if record.kind == 2 { count } else { data.len() };
    let counted = if record.kind == 0 { count <= 2 } else { (1..=4095).contains(&count) };
    if !counted {
        return Err(23);
    }
    let fields = first <= 15 && last <= 15;
    if record.kind == 1 && !(fields && enables_allowed(count, address, first, last)) {
        return Err(24);
    }
    if record.kind != 0 && !record.wide && address >= 1 << 32 {
        return Err(25);
    }
    let byte1 = if record.kind == 1 { first + 16 * last } else { 0 };
    let byte0 = record.tag
        + 16 * record.kind
        + if record.wide { 64 } else { 0 }
        + if record.discovery { 128 } else { 0 };
    let mut words = vec![byte0 + 256 * byte1 + 65_536 * count as u32];
    if record.kind != 0 {
        words.push((address % (1 << 32)) as u32);
    }
    if record.kind != 0 && record.wide {
        words.push((address / (1 << 32)) as u32);
    }
    if record.kind != 2 {
        words.extend(data);
    }
    let answer = record.answer + 1 + if record.kind == 1 { 0 } else { count };
    if record.words + words.len() > WORDS || answer > WORDS {
        Err(26)
    } else {
        Ok(words)
    }
}
