//! What the proof takes for granted of a caller, and what the machine has that the proof knows
//! nothing of: pointers, threads, the stack.

use conformance::{agreed, agreed_run, back, compare_run, harbour, narrow, one_sheet, refused};
use conformance::{regular, space_for, stairs, write, Book, Run, FINISH, LIBRARY, MARK};
use fuzz::{check_null, run_nulls, stack_used};
use std::thread;

/// The format's page asks for a pointer that isn't null, of no bytes too; the code that was
/// compiled looks at none.
#[test]
fn null_pointers_of_no_bytes() {
    assert_eq!(check_null(), refused(1, 0));
    assert_eq!(run_nulls(), [refused(1, 0), refused(11, 72)]);
}

/// All three parts at any offset from where a piece of the heap begins, whatever lies around them.
#[test]
fn unaligned_pointers() {
    let largest = write(&regular(16, 32, 8, 508, 4));
    let runs = (0..200).map(Run::new);
    let mut inputs: Vec<_> = runs.map(|run| (run.book, run.orders, run.space)).collect();
    inputs.extend([(write(&harbour()), vec![], 72), (largest, vec![], 72)]);
    let offsets: Vec<usize> = (0..64).collect();
    for (book, orders, space) in &inputs {
        compare_run(&LIBRARY, &offsets, book, orders, *space).unwrap();
        let checked = agreed(book);
        for offset in &offsets {
            let shifted = [&vec![0xEE; *offset][..], book].concat();
            assert_eq!(fitting::check_number(&shifted[*offset..]), checked);
        }
    }
}

/// Both are only read, so the orders may lie in the book: here its own bytes are its orders.
#[test]
fn orders_that_lie_in_the_book() {
    let book = write(&regular(16, 32, 8, 508, 4));
    for (from, to) in [(0, 0), (0, 512), (512, 2_560), (1_001, 3_001)] {
        let orders = &book[from..to];
        let (number, space) = agreed_run(&book, orders, space_for(orders));
        let mut answers = vec![0; space_for(orders)];
        assert_eq!(fitting::run_number(&book, orders, &mut answers), number);
        assert_eq!(answers, space);
    }
}

/// The library has no memory of its own, so any number of calls may be under way at once: here eight
/// threads over the same books.
#[test]
fn many_threads_at_once() {
    let expected = |run: Run| (agreed_run(&run.book, &run.orders, run.space), run);
    let runs: Vec<_> = (0..300).map(Run::new).map(expected).collect();
    thread::scope(|scope| {
        for first in 0..8 {
            let runs = runs.iter().cycle().skip(37 * first).take(4 * runs.len());
            scope.spawn(move || {
                for ((number, space), run) in runs {
                    let mut answers = vec![0xEE; run.space];
                    let given = fitting::run_number(&run.book, &run.orders, &mut answers);
                    assert_eq!(given, *number);
                    if given < 65_536 {
                        let needed = space_for(&run.orders);
                        assert_eq!(answers[..needed], space[..needed]);
                    }
                }
            });
        }
    });
}

/// The stack that a run of these orders uses.
fn stack_of(book: &Book, orders: &[u8]) -> usize {
    let book = write(book);
    let mut answers = vec![0; space_for(orders)];
    let (number, _) = agreed_run(&book, orders, answers.len());
    assert!(number < 65_536);
    stack_used(|| {
        fitting::run_number(&book, orders, &mut answers);
    })
}

/// Sixteen columns of 32 values, the last eight of them each in a sheet that has a row for each value:
/// none is struck, so every column has to be set, and each of the last wakes a sheet.
fn sixteen_open() -> Book {
    let mut book = regular(16, 32, 8, 32, 1);
    for (sheet, column) in book.sheets.iter_mut().zip(8..) {
        sheet.columns = vec![column];
        sheet.rows = (0..32).map(|value| vec![value]).collect();
    }
    book
}

/// The same columns; the first eight each clash with half of one of the last, but for their highest value: rows are
/// counted, and none is struck before a column is set.
fn sixteen_counted() -> Book {
    let mut book = regular(16, 32, 8, 0, 2);
    for (sheet, column) in book.sheets.iter_mut().zip(0..) {
        sheet.forbidden = true;
        sheet.columns = vec![column, column + 8];
        sheet.rows = (0..31 * 16_u16)
            .map(|n| vec![(n / 16) as u8, (n % 16) as u8])
            .collect();
    }
    book
}

/// The search goes one call deeper for each column that it sets: no book takes it deeper than one
/// whose sixteen columns are all open, down to the last.
#[test]
fn the_stack_of_a_run() {
    let check = write(&regular(16, 32, 8, 508, 4));
    let check = stack_used(|| {
        fitting::check_number(&check);
    });
    let narrows: Vec<_> = (0..16).map(|column| narrow(column, u32::MAX - 1)).collect();
    let marked = [&[MARK; 16][..], &narrows, &[FINISH, back(1), FINISH]].concat();
    let [opening, done, counted, of_0, of_8, of_16, of_counted, after_marks] = [
        (harbour(), vec![]),
        (one_sheet(&[32; 4], stairs(&[32; 4])), vec![]),
        (sixteen_counted(), vec![]),
        (regular(16, 1, 0, 0, 1), vec![FINISH]),
        (regular(8, 32, 0, 0, 1), vec![FINISH]),
        (sixteen_open(), vec![FINISH]),
        (sixteen_counted(), vec![FINISH]),
        (sixteen_open(), marked),
    ]
    .map(|(book, orders)| stack_of(&book, &orders.concat()));
    println!(
        "stack in bytes: check {check}, run {opening}, with a sheet that is nearly done {done}, with \
         forbidden ones that are counted {counted}, with a finish of 0 open columns {of_0}, of 8 {of_8}, of 16 \
         {of_16}, with forbidden sheets {of_counted}, after 16 marks {after_marks}"
    );
    assert!(check < 1_024 && opening.max(done).max(counted) < 28_672);
    assert!(of_0 < of_8 && of_8 < of_16);
    assert!(of_16.max(of_counted).max(after_marks) < 43_008);
}
