//! How often each ending was printed.

use std::collections::BTreeMap;
use std::fmt;

/// Every ending that the case program can print: those of a run with start 0 whose lengths hold, and
/// 41 for a bad line.
pub const ENDINGS: [u64; 16] = [0, 1, 2, 10, 12, 21, 22, 23, 24, 25, 26, 31, 32, 33, 34, 41];

/// The ending that a printed report begins with.
pub fn ending(printed: &[u8]) -> Option<u64> {
    let number = printed.split(|&byte| byte == b' ').next()?;
    std::str::from_utf8(number).ok()?.parse().ok()
}

/// Counts endings.
#[derive(Default)]
pub struct Tally {
    counts: BTreeMap<u64, u64>,
}

impl Tally {
    /// Counts the ending of what was printed.
    pub fn count(&mut self, printed: &[u8]) {
        let ending = ending(printed).expect("a report begins with its ending");
        *self.counts.entry(ending).or_insert(0) += 1;
    }

    pub fn total(&self) -> u64 {
        self.counts.values().sum()
    }

    /// Fails if an ending came less often than it should: a comparison that never meets it says
    /// nothing about it.
    pub fn assert_quota(&self, endings: &[u64], quota: u64) {
        for ending in endings {
            let count = self.counts.get(ending).copied().unwrap_or(0);
            assert!(count >= quota, "{ending} came {count} times, and not {quota} times or more");
        }
    }
}

impl fmt::Display for Tally {
    fn fmt(&self, formatter: &mut fmt::Formatter) -> fmt::Result {
        let counts: Vec<String> =
            self.counts.iter().map(|(ending, count)| format!("{ending}: {count}")).collect();
        write!(formatter, "{} agreed (by ending {})", self.total(), counts.join(", "))
    }
}

#[cfg(test)]
mod tests {
    use super::*;

    #[test]
    fn endings_are_counted() {
        let mut tally = Tally::default();
        for printed in ["0 3 3 1 0\n", "41 1 0 0 0\n", "41 2 0 0 0\n"] {
            tally.count(printed.as_bytes());
        }
        assert_eq!(tally.to_string(), "3 agreed (by ending 0: 1, 41: 2)");
        tally.assert_quota(&[0, 41], 1);
    }
}
