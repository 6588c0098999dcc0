//! The settled domains, the first full set, the tries and the done sheets once more, by nothing but their
//! definitions: every box that there is, every set, every try, and every choice.

use super::{described, described_harbour};
use crate::choices::allows_every_choice;
use crate::finish::{finish, one_of_each, values_of};
use crate::orders::value_bit;
use crate::{all_values, allows, closure, is_short, search, turned, written_out};
use crate::{Book, Outcome, Sheet, ANY, MOST_TRIES};

/// Every combination of one value of each column of a sheet that lies in the box.
fn combinations(sheet: &Sheet, domains: &[u32]) -> Vec<Vec<u8>> {
    let columns = sheet.columns.iter();
    let held = columns.map(|&column| values_of(domains[usize::from(column)]));
    one_of_each(&held.collect::<Vec<_>>())
}

/// "A *sound box* has no empty column, and in it, for each sheet, every value of every column of
/// that sheet is carried" by a combination in the box: "Sound boxes, full sets and done then go by allowed
/// combinations".
fn is_sound(book: &Book, domains: &[u32]) -> bool {
    let no_empty_column = domains.iter().all(|&domain| domain != 0);
    let every_value_carried = book.sheets.iter().all(|sheet| {
        let mut allowed = combinations(sheet, domains);
        allowed.retain(|combination| allows(sheet, combination));
        (0..sheet.columns.len()).all(|i| {
            let domain = domains[usize::from(sheet.columns[i])];
            let values = allowed.iter().map(|combination| value_bit(combination[i]));
            values.fold(0, |carried, value| carried | value) == domain
        })
    });
    no_empty_column && every_value_carried
}

/// Every sound box within these domains.
fn sound_boxes(book: &Book, allowed: &[u32]) -> Vec<Vec<u32>> {
    let parts = |&most: &u32| (0..=most).filter(|part| part & !most == 0).collect();
    let parts: Vec<_> = allowed.iter().map(parts).collect();
    let mut boxes = one_of_each(&parts);
    boxes.retain(|domains| is_sound(book, domains));
    boxes
}

/// "the union, column by column, of all sound boxes within them"
fn union_of_sound_boxes(book: &Book, allowed: &[u32]) -> Vec<u32> {
    let mut union = vec![0; allowed.len()];
    for domains in sound_boxes(book, allowed) {
        for (all, domain) in union.iter_mut().zip(domains) {
            *all |= domain;
        }
    }
    union
}

/// "every choice of one value from the current domain of each column of the sheet is allowed by it": how
/// many are not.
pub(super) fn choices_missing(sheet: &Sheet, domains: &[u32]) -> usize {
    let mut choices = combinations(sheet, domains);
    choices.retain(|choice| !allows(sheet, choice));
    choices.len()
}

/// "its values in each sheet's columns form a row", or one that is short, or a combination that a forbidden
/// sheet allows.
fn is_full(book: &Book, set: &[u8]) -> bool {
    book.sheets.iter().all(|sheet| {
        let columns = sheet.columns.iter();
        let values: Vec<u8> = columns.map(|&column| set[usize::from(column)]).collect();
        allows(sheet, &values)
    })
}

/// "A full set takes one value of each current domain". "The first is lowest by column 0, then column 1,
/// and so on."
fn by_trying_all(book: &Book, domains: &[u32]) -> Outcome {
    let values: Vec<_> = domains.iter().map(|&domain| values_of(domain)).collect();
    let mut sets = one_of_each(&values).into_iter();
    let first = sets.find(|set| is_full(book, set));
    first.map_or(Outcome::None, Outcome::Found)
}

/// The boxes that the search settles, one for each try, in their order: all of them, the first full set
/// passed over like any other end.
fn every_try(book: &Book, domains: &[u32], boxes: &mut Vec<Vec<u32>>) {
    if domains.contains(&0) {
        return;
    }
    let Some(column) = domains.iter().position(|domain| domain.count_ones() > 1) else {
        return;
    };
    for value in values_of(domains[column]) {
        let mut tried = domains.to_vec();
        tried[column] = value_bit(value);
        boxes.push(closure(book, &tried));
        every_try(book, &boxes[boxes.len() - 1].clone(), boxes);
    }
}

/// How many of them there are "up to the first full set or the search's end".
fn tries_needed(book: &Book, domains: &[u32]) -> u32 {
    let is_set = |domains: &[u32]| domains.iter().all(|domain| domain.count_ones() == 1);
    let mut boxes = Vec::new();
    every_try(book, domains, &mut boxes);
    let first = boxes.iter().position(|settled| is_set(settled));
    first.map_or(boxes.len(), |before| before + 1) as u32
}

/// Numbers from a seed: a step of a linear congruence, its upper bits.
struct Numbers(u64);

impl Numbers {
    fn below(&mut self, end: u64) -> u8 {
        self.0 = (self.0.wrapping_mul(6_364_136_223_846_793_005)).wrapping_add(1);
        ((self.0 >> 33) % end) as u8
    }

    /// Up to four columns of one to three values each, or of two, and up to seven sheets.
    fn book(&mut self) -> Book {
        let alike = self.below(2) == 0;
        let count = |_| if alike { 2 } else { 1 + self.below(3) };
        let counts: Vec<u8> = (0..4).map(count).collect();
        let counts = &counts[self.below(4).into()..];
        let sheets = (0..self.below(8)).map(|_| self.sheet(counts)).collect();
        let counts = counts.to_vec();
        Book { counts, sheets }
    }

    /// Up to twelve rows. In half of the sheets the first value and the last must differ, as in K7. In a
    /// quarter of them every fourth cell is any. A quarter of the others are forbidden sheets.
    fn sheet(&mut self, counts: &[u8]) -> Sheet {
        let mut columns: Vec<u8> = (0..2 + self.below(2))
            .map(|_| self.below(counts.len() as u64))
            .collect();
        columns.sort();
        columns.dedup();
        let mut value = |&column: &u8| self.below(counts[usize::from(column)].into());
        let row = |_| columns.iter().map(&mut value).collect();
        let mut rows: Vec<Vec<u8>> = (0..12).map(row).collect();
        if columns.len() > 1 && self.below(2) == 0 {
            rows.retain(|row| row[0] != row[row.len() - 1]);
        } else {
            rows.truncate(self.below(13).into());
        }
        let mut forbidden = false;
        if self.below(4) == 0 {
            let cells = rows.iter_mut().flatten();
            let some = cells.filter(|_| self.below(4) == 0);
            some.for_each(|cell| *cell = ANY);
        } else if self.below(4) == 0 {
            forbidden = true;
            rows.truncate(self.below(13).into());
            rows.sort();
            rows.dedup();
        }
        Sheet {
            forbidden,
            columns,
            rows,
        }
    }
}

/// A book without its short rows.
pub(super) fn without_short_rows(book: &Book) -> Book {
    let mut plain = book.clone();
    for sheet in &mut plain.sheets {
        sheet.rows.retain(|row| !is_short(row));
    }
    plain
}

/// A book that allows the same, all of whose sheets are of the other kind.
fn turned_over(book: &Book) -> Book {
    let sheets = book.sheets.iter().map(|sheet| turned(book, sheet));
    Book {
        counts: book.counts.clone(),
        sheets: sheets.collect(),
    }
}

/// "What a buyer sees of an accepted book must equal a book with such rows written out": of that one too, what
/// document 01 says of plain rows. And of one whose forbidden sheets are plain and whose plain ones are forbidden.
#[test]
fn all_give_what_the_definitions_say() {
    let numbers = &mut Numbers(1);
    let [mut dead, mut struck, mut kept] = [0; 3];
    let [mut none, mut lowest, mut higher] = [0; 3];
    let [mut short, mut kept_by_short, mut found_by_short] = [0; 3];
    let [mut two_open, mut one_missing, mut more_missing] = [0; 3];
    let (mut tried, mut most_tries) = (0, 0);
    let [mut mixed, mut struck_by_forbidden, mut dead_by_forbidden] = [0; 3];
    for case in 0..36_000 {
        let book = numbers.book();
        let mut allowed = Vec::new();
        for &count in &book.counts {
            let taken = numbers.below(8) & numbers.below(8) & numbers.below(8);
            allowed.push(all_values(count) & !u32::from(taken));
        }
        let domains = closure(&book, &allowed);
        let union = union_of_sound_boxes(&book, &allowed);
        assert_eq!(domains, union, "case {case}: {book:?}");
        let first = by_trying_all(&book, &domains);
        let needed = tries_needed(&book, &domains);
        let ended = (first.clone(), needed);
        for limit in [needed, needed + 1, MOST_TRIES] {
            assert_eq!(
                finish(&book, &domains, limit),
                ended,
                "case {case}: {book:?}"
            );
        }
        for limit in 0..needed {
            let stopped = (Outcome::Stopped, limit);
            assert_eq!(
                finish(&book, &domains, limit),
                stopped,
                "case {case}: {book:?}"
            );
        }
        most_tries = most_tries.max(needed);
        tried += usize::from(needed > 1);
        // Settling loses no full set, so the same one is first among all values.
        assert_eq!(by_trying_all(&book, &allowed), first, "case {case}");
        for sheet in &book.sheets {
            let missing = choices_missing(sheet, &domains);
            let done = allows_every_choice(sheet, &domains);
            assert_eq!(done, missing == 0, "case {case}: {book:?}");
            let columns = sheet.columns.iter();
            let open = columns.filter(|&&column| domains[usize::from(column)].count_ones() > 1);
            match missing {
                0 => two_open += usize::from(open.count() > 1),
                1 => one_missing += 1,
                _ => more_missing += 1,
            }
        }
        let twin = turned_over(&book);
        assert_eq!(closure(&twin, &allowed), domains, "case {case}: {book:?}");
        assert_eq!(finish(&twin, &domains, MOST_TRIES), ended, "case {case}");
        for (sheet, twin) in book.sheets.iter().zip(&twin.sheets) {
            let [one, other] = [sheet, twin].map(|it| allows_every_choice(it, &domains));
            assert_eq!(one, other, "case {case}: {sheet:?}");
        }
        let mut others = book.clone();
        others.sheets.retain(|sheet| !sheet.forbidden);
        if others.sheets.len() < book.sheets.len() {
            mixed += usize::from(!others.sheets.is_empty());
            let without = closure(&others, &allowed);
            let dies = without[0] != 0 && domains[0] == 0;
            dead_by_forbidden += usize::from(dies);
            struck_by_forbidden += usize::from(without != domains && !dies);
        }
        let plain = without_short_rows(&book);
        if plain != book {
            let twin = written_out(&book);
            assert_eq!(without_short_rows(&twin), twin, "case {case}: {book:?}");
            let union = union_of_sound_boxes(&twin, &allowed);
            assert_eq!(domains, union, "case {case}: {book:?}");
            assert_eq!(by_trying_all(&twin, &allowed), first, "case {case}");
            short += 1;
            kept_by_short += usize::from(closure(&plain, &allowed) != domains);
            found_by_short += usize::from(by_trying_all(&plain, &domains) != first);
        }
        match domains {
            _ if domains[0] == 0 => dead += 1,
            _ if domains == allowed => kept += 1,
            _ => struck += 1,
        }
        let values = domains.iter().map(|domain| domain.trailing_zeros() as u8);
        match first {
            Outcome::Found(set) if values.eq(set.iter().copied()) => lowest += 1,
            Outcome::Found(_) => higher += 1,
            _ => none += usize::from(domains[0] != 0),
        }
    }
    println!("{dead} dead, {struck} struck, {kept} kept");
    println!(
        "{none} alive without a full set, {lowest} with the lowest values, {higher} with others"
    );
    println!(
        "{short} with short rows, {kept_by_short} where they keep a value, {found_by_short} where \
         without them another set is first, or none"
    );
    println!(
        "sheets: {two_open} done with two columns open or more, {one_missing} one choice short, \
         {more_missing} more"
    );
    println!("{tried} with two tries or more, up to {most_tries}");
    println!(
        "{mixed} with sheets of both kinds; forbidden ones strike in {struck_by_forbidden}, and leave \
         nothing in {dead_by_forbidden}"
    );
    assert!(mixed > 5_000 && struck_by_forbidden > 1_000 && dead_by_forbidden > 1_000);
    assert!(tried > 2_000 && most_tries > 4);
    assert!(two_open > 1_000 && one_missing > 1_000 && more_missing > 1_000);
    assert!(dead > 5_000 && struck > 5_000 && kept > 5_000);
    assert!(short > 5_000 && kept_by_short > 2_000 && found_by_short > 2_000);
    assert!(none > 100 && lowest > 2_000 && higher > 2_000);
}

/// One book whose boxes are few enough to count on paper: rows 00 and 11 on two columns.
#[test]
fn the_boxes_of_a_small_book() {
    let book = described(&[2, 2], &[(&[0, 1], &[&[0, 0], &[1, 1]])]);
    assert_eq!(sound_boxes(&book, &[3, 3]), [[1, 1], [2, 2], [3, 3]]);
    assert_eq!(union_of_sound_boxes(&book, &[1, 3]), [1, 1]);
    assert_eq!(union_of_sound_boxes(&book, &[1, 2]), [0, 0]);
}

/// Columns 0 and 1 are equal and column 2 is the other value: 0 wants 1 in column 3, and there only
/// 1 in column 1 goes with it.
#[test]
fn the_lowest_value_leads_nowhere() {
    let sheets: [(&[u8], &[&[u8]]); 4] = [
        (&[0, 1], &[&[1, 1], &[0, 0]]),
        (&[1, 2], &[&[0, 1], &[1, 0]]),
        (&[0, 2, 3], &[&[0, 0, 1], &[0, 1, 1], &[1, 0, 0]]),
        (&[1, 3], &[&[0, 0], &[1, 0], &[1, 1]]),
    ];
    let book = described(&[2, 2, 2, 2], &sheets);
    let domains = closure(&book, &[3, 3, 3, 3]);
    assert_eq!(domains, [3, 3, 3, 3]);
    let found = Outcome::Found(vec![1, 1, 0, 0]);
    assert_eq!(by_trying_all(&book, &domains), found);
    // 0 in column 0 leads nowhere at once, and 1 leaves one value of each other column.
    for (most, ended) in [(0, None), (1, None), (2, Some((found.clone(), 2)))] {
        assert_eq!(search(&book, &domains, most), ended);
    }
}

/// "lowest by column 0, then column 1": 0 in column 0 counts before 0 in column 1.
#[test]
fn column_0_counts_first() {
    let rows: &[&[u8]] = &[&[1, 0], &[0, 2], &[0, 1]];
    let book = described(&[2, 3, 2], &[(&[0, 1], rows), (&[2], &[&[1]])]);
    let domains = closure(&book, &[3, 7, 3]);
    assert_eq!(domains, [3, 7, 2]);
    let found = Outcome::Found(vec![0, 1, 1]);
    assert_eq!(by_trying_all(&book, &domains), found);
    // 0 in column 0, then 1 in column 1; column 2 is single.
    assert_eq!(finish(&book, &domains, 9), (found, 2));
}

/// Each row of sheet 0 with each of sheet 1 that has the same motor, and no other.
#[test]
fn the_full_sets_of_harbour() {
    let mut sets = one_of_each(&[vec![0, 1, 2], vec![0, 1], vec![0, 1]]);
    sets.retain(|set| is_full(&described_harbour(), set));
    let full = ["000", "001", "100", "101", "111", "211"];
    let digits = |set: &str| set.bytes().map(|digit| digit - b'0').collect();
    assert_eq!(sets, full.map(digits) as [Vec<u8>; 6]);
}

/// Sixteen columns of 32 values and no sheet: no set need be passed over. Five columns are single.
#[test]
fn the_most_sets() {
    let domains = &[!0, 2, 12].repeat(6)[..16];
    let found = Outcome::Found([0, 1, 2].repeat(6)[..16].to_vec());
    let book = described(&[32; 16], &[]);
    assert_eq!(finish(&book, domains, 11), (found, 11));
    assert_eq!(finish(&book, domains, 10), (Outcome::Stopped, 10));
}
