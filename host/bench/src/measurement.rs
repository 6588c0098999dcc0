//! What was measured: the one list from which the page and the picture are made.

use fitting::Outcome;

/// What is timed.
#[derive(Clone, Copy, PartialEq, Eq, Debug)]
pub enum Kind {
    Check,
    Opening,
    Narrow,
    ToAndFro,
    Finish,
    Short,
    Long,
}

impl Kind {
    /// All of them, in the order of the page.
    pub const ALL: [Self; 7] = {
        use Kind::*;
        [Check, Opening, Narrow, ToAndFro, Finish, Short, Long]
    };

    /// Its name on the page.
    pub fn title(self) -> &'static str {
        match self {
            Self::Check => "check",
            Self::Opening => "opening",
            Self::Narrow => "narrow",
            Self::ToAndFro => "mark + narrow + back",
            Self::Finish => "finish",
            Self::Short => "run of 17 orders",
            Self::Long => "run of 256 orders",
        }
    }
}

/// What the library is compared with.
#[derive(Clone, Copy, PartialEq, Eq, Debug)]
pub enum Opponent {
    Hand,
    Packed,
    Gecode,
    GecodeWithTables,
    /// The library itself, on the same book with a value in place of each 255; or, where sheets are forbidden, on the
    /// one that allows the same in plain sheets.
    Plain,
}

impl Opponent {
    /// All of them, in the order of the table.
    pub const ALL: [Self; 5] = {
        use Opponent::*;
        [Hand, Packed, Gecode, GecodeWithTables, Plain]
    };
}

/// One row of the table, and one of the picture.
pub struct Measurement {
    /// What was timed.
    pub kind: Kind,
    /// The name of the book.
    pub book: String,
    /// What came of it, besides the times.
    pub note: String,
    /// Of a finish: its tries.
    pub tries: Option<Tries>,
    /// The library's time in nanoseconds.
    pub library: f64,
    /// Those of the opponents, where there is something to compare.
    pub others: [Option<f64>; Opponent::ALL.len()],
    /// How many rounds there were.
    pub rounds: usize,
}

impl Measurement {
    /// The library's time over that of this opponent. A difference that is lost in noise may be no time
    /// at all: then there is no ratio.
    pub fn ratio(&self, opponent: Opponent) -> Option<f64> {
        let other = self.others[opponent as usize]?;
        (self.library > 0.0 && other > 0.0).then(|| self.library / other)
    }

    /// That ratio in words.
    pub fn ratio_text(&self, opponent: Opponent) -> String {
        match self.ratio(opponent) {
            None => "-".into(),
            Some(small) if small < 0.0995 => format!("{small:.3}"),
            Some(ratio) => format!("{ratio:.2}"),
        }
    }

    /// This opponent's time over the library's, in words.
    pub fn times_text(&self, opponent: Opponent) -> String {
        match self.ratio(opponent).map(f64::recip) {
            None => "-".into(),
            Some(small) if small < 9.995 => format!("{small:.2}"),
            Some(middle) if middle < 99.95 => format!("{middle:.1}"),
            Some(large) => thousands(large.round() as u64),
        }
    }
}

/// The tries of the library in a finish: one row of their table.
#[derive(Clone)]
pub struct Tries {
    /// The name of the book.
    pub book: String,
    /// Found, none or stopped.
    pub outcome: Outcome,
    /// How many there were.
    pub tries: u16,
    /// The time of the finish in nanoseconds.
    pub nanos: f64,
}

impl Tries {
    /// The time for each in nanoseconds.
    pub fn each(&self) -> f64 {
        self.nanos / f64::from(self.tries.max(1))
    }

    /// What came of them, in words.
    pub fn said(&self) -> String {
        let Self { outcome, tries, .. } = self;
        let word = if *tries == 1 { "try" } else { "tries" };
        format!("{outcome} after {} {word}", thousands((*tries).into()))
    }
}

/// Nanoseconds to three figures, in a unit that fits.
pub fn time(nanos: f64) -> String {
    let (number, unit) = match nanos {
        small if small < 999.5 => (small, "ns"),
        middle if middle < 999.5e3 => (middle / 1e3, "µs"),
        large if large < 999.5e6 => (large / 1e6, "ms"),
        longest => (longest / 1e9, "s"),
    };
    let places = match number {
        small if small < 9.995 => 2,
        middle if middle < 99.95 => 1,
        _ => 0,
    };
    format!("{number:.places$} {unit}")
}

/// A whole number with a comma before every three figures.
pub fn thousands(number: u64) -> String {
    match number {
        small if small < 1_000 => small.to_string(),
        large => format!("{},{:03}", thousands(large / 1_000), large % 1_000),
    }
}

#[cfg(test)]
mod tests {
    use super::*;

    #[test]
    fn numbers_are_told_in_words() {
        let times = [3.456, 999.4, 999.6, 12_345.0, 39_493_000.0, 71.23e9].map(time);
        assert_eq!(
            times,
            ["3.46 ns", "999 ns", "1.00 µs", "12.3 µs", "39.5 ms", "71.2 s"]
        );
        let numbers = [0, 508, 16_896, 1_000_067].map(thousands);
        assert_eq!(numbers, ["0", "508", "16,896", "1,000,067"]);
    }
}
