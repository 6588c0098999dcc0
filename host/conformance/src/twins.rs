//! Twins: two books whose sheets allow the same, so that every run of one is answered as that of the other.

use crate::{agreed_run, asked, kit, show, space_for, write, Book, Run, Seen, Tally};
use reference::decode;

/// One way to make twins.
pub struct Twins {
    /// What a book has that its twin has in another form, in words.
    pub of: &'static str,
    /// Whether a book has it.
    pub has: fn(&Book) -> bool,
    /// The twin, if it is within the limits.
    pub twin: fn(&Book) -> Option<Book>,
    /// What is counted of both, in words, and how many a book has.
    pub counted: (&'static str, fn(&Book) -> usize),
}

impl Twins {
    /// Both versions give the same for the book and for its twin: the number, and every byte of the space.
    pub fn agree(&self, book: &Book, orders: &[u8], space: usize, told: &str) -> (u64, Vec<u8>) {
        let twin = (self.twin)(book).expect("a twin within the limits");
        let [given, of_twin] = [book, &twin].map(|it| agreed_run(&write(it), orders, space));
        assert!(given == of_twin, "{told}: other answers than its twin's");
        given
    }

    /// Every accepted book of the kit that has a twin.
    pub fn of_the_kit(&self) {
        let mut twins = 0;
        for vector in kit::vectors() {
            let Some(book) = decode(&vector.book).filter(self.has) else {
                continue;
            };
            if (self.twin)(&book).is_some() {
                self.agree(&book, &vector.orders, vector.space(), &vector.name);
                twins += 1;
            }
        }
        println!("{twins} vectors with {} and a twin", self.of);
        assert!(twins > 20);
    }

    /// So many seeded books that have a twin, or more if `FITTING_TWINS` asks for it, with their lists, finishes among
    /// them.
    pub fn seeded(&self, usual: u64) {
        let twins = asked("FITTING_TWINS", usual) as usize;
        let mut tally = Tally::default();
        let mut found = 0;
        for seed in 0.. {
            let run = Run::new(seed);
            if let Some(book) = decode(&run.book).filter(self.has) {
                found += usize::from(self.count(&mut tally, &book, &run, seed));
            }
            if found == twins {
                break;
            }
        }
        let of = self.of;
        show(&format!(
            "{twins} books with {of}, each answers as its twin\n\n{tally}"
        ));
        tally.assert_each_above(250);
    }

    /// One of these, counted. Whether it has a twin.
    fn count(&self, tally: &mut Tally, book: &Book, run: &Run, seed: u64) -> bool {
        let Some(twin) = (self.twin)(book) else {
            let of = self.of;
            tally.add(&format!("books with {of} whose twin is past the limits"), 1);
            return false;
        };
        let (number, space) = self.agree(book, &run.orders, run.space, &format!("seed {seed}"));
        let (words, count) = self.counted;
        tally.add(&format!("{words} of the books"), count(book));
        tally.add(&format!("{words} of their twins"), count(&twin));
        if number >= 65_536 {
            tally.add("runs refused alike", 1);
            return true;
        }
        let answers = Seen::read_all(&space[..space_for(&run.orders)]);
        for (words, outcome) in [("found", 1), ("none", 2), ("stopped", 3)] {
            let finishes = answers.iter().filter(|seen| seen.outcome == outcome);
            tally.add(&format!("finishes, {words}"), finishes.count());
        }
        tally.add("answers", answers.len());
        true
    }
}
