//! What is worked by hand, and what is checked by its definition alone. The edges of the documents, each with
//! its number, are tests of `conformance`, where both versions are held against them.

mod defined;
mod done;
mod finish;
mod forbidden;
mod short;

use crate::{book_refusals, check, decode, run_refusals, Book, Kind, Sheet};

/// "H has three columns: 0 width with V 3, 1 motor with V 2, 2 board with V 2." "Sheet 0 (width,
/// motor): 00 10 11 21. Sheet 1 (motor, board): 00 01 11." The checks are added up on paper.
fn harbour() -> Vec<u8> {
    let mut book = vec![0; 3 * 512];
    let mut put = |at: usize, bytes: &[u8]| book[at..at + bytes.len()].copy_from_slice(bytes);
    put(0, b"FGB1");
    put(4, &[3, 2]);
    put(8, &[3, 2, 2]);
    put(24, &[2, 0, 1, 0, 0, 0, 4, 0]);
    put(32, &[2, 1, 2, 0, 0, 0, 3, 0]);
    // 826,427,206 for the letters, 515, 131,587, then 65,538 + 262,144 and 131,330 + 196,608; plus 1
    put(508, &827_214_929_u32.to_le_bytes());
    put(512, &[0, 0, 0, 0, 1, 0, 0, 0, 1, 1, 0, 0, 2, 1]);
    // 0 + 1 + 257 + 258, plus 2
    put(1020, &518_u32.to_le_bytes());
    put(1024, &[0, 0, 0, 0, 0, 1, 0, 0, 1, 1]);
    // 0 + 256 + 257, plus 3
    put(1532, &516_u32.to_le_bytes());
    book
}

/// A book of these columns' values, and of sheets, each its columns and its rows.
fn described(counts: &[u8], sheets: &[(&[u8], &[&[u8]])]) -> Book {
    let sheet = |&(columns, rows): &(&[u8], &[&[u8]])| Sheet {
        forbidden: false,
        columns: columns.to_vec(),
        rows: rows.iter().map(|row| row.to_vec()).collect(),
    };
    Book {
        counts: counts.to_vec(),
        sheets: sheets.iter().map(sheet).collect(),
    }
}

/// H as plain data.
fn described_harbour() -> Book {
    let motors: &[&[u8]] = &[&[0, 0], &[1, 0], &[1, 1], &[2, 1]];
    let boards: &[&[u8]] = &[&[0, 0], &[0, 1], &[1, 1]];
    described(&[3, 2, 2], &[(&[0, 1], motors), (&[1, 2], boards)])
}

#[test]
fn harbour_is_accepted_and_decodes() {
    assert_eq!(check(&harbour()), 3 * 16 + 2);
    assert_eq!(decode(&harbour()), Some(described_harbour()));
    let mut wrong = harbour();
    wrong[0] = b'f';
    assert_eq!(decode(&wrong), None);
}

#[test]
fn a_sum_past_32_bits_leaves_out_its_carries() {
    let mut book = vec![0xFF; 1024];
    // 127 times 4,294,967,295 is 127 × 2³² − 127; plus 1, and plus 2
    book[508..512].copy_from_slice(&4_294_967_170_u32.to_le_bytes());
    book[1020..].copy_from_slice(&4_294_967_171_u32.to_le_bytes());
    assert_eq!(check(&book), 3 * 65_536);
}

/// Byte 512 is the first that a row can have, and 16,891 the last; the four bytes of each block's check
/// lie between two places. The row of byte 516 is the first that has one before it.
#[test]
fn places_of_rows() {
    for (refusal, places) in &book_refusals()[4..] {
        let first = if *refusal == 7 { 516 / 4 } else { 512 / 4 };
        let last = 16_891 / 4;
        let rows = (first..=last).filter(|place| 4 * place % 512 != 508);
        assert!(rows.eq(places.iter().copied()), "refusal {refusal}");
    }
}

/// The lists that every table goes by.
#[test]
fn kinds_and_refusals() {
    let books = book_refusals().into_iter();
    let places = books.map(|(refusal, places)| (refusal, places.len()));
    // 127 rows in each of 32 blocks
    let rows = 4_064;
    let [five, six, seven] = [(5, rows), (6, rows), (7, rows - 1)];
    assert!(places.eq([(1, 1), (2, 33), (3, 505), (4, 33), five, six, seven]));
    assert_eq!(run_refusals(), [10, 11]);
    let refusals = Kind::ALL.map(Kind::refusals);
    let expected: [&[u8]; 5] = [&[25, 21, 22], &[25, 23], &[25, 24], &[25, 27], &[20]];
    assert_eq!(refusals, expected);
    for (number, kind) in (1..).zip(&Kind::ALL[..4]) {
        assert_eq!(Kind::of(&[number; 8]), *kind);
    }
    assert_eq!([0, 200].map(|kind| Kind::of(&[kind; 8])), [Kind::Other; 2]);
}
