//! How often each of many things was seen.

use std::collections::BTreeMap;
use std::fmt;

/// Counts by what is counted, in words.
#[derive(Clone, Debug, Default)]
pub struct Tally(BTreeMap<String, usize>);

impl Tally {
    /// So many more of these. None more says that they are looked for.
    pub fn add(&mut self, words: &str, count: usize) {
        match self.0.get_mut(words) {
            Some(known) => *known += count,
            None => {
                self.0.insert(words.into(), count);
            }
        }
    }

    /// How many of these there were.
    pub fn of(&self, words: &str) -> usize {
        self.0.get(words).copied().unwrap_or(0)
    }

    /// How many different things are counted.
    pub fn kinds(&self) -> usize {
        self.0.len()
    }

    /// Panics unless each thing that is counted was seen more often than this.
    pub fn assert_each_above(&self, fewest: usize) {
        for (words, &count) in &self.0 {
            assert!(count > fewest, "{words}: {count}");
        }
    }
}

impl fmt::Display for Tally {
    fn fmt(&self, f: &mut fmt::Formatter<'_>) -> fmt::Result {
        let mut counts = self.0.iter();
        counts.try_for_each(|(words, count)| writeln!(f, "- {words}: {count}"))
    }
}
