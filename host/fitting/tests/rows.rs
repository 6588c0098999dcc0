//! Refusals 5, 6 and 7: from the place to the row, and what is wrong there.

use conformance::{changed, harbour, regular, write, Book, Sheet};
use fitting::{check, Refusal, RowPlace};

/// Three sheets of 4, 0 and 130 rows, of the columns 1; 0 and 2; 0, 1 and 2. All values are 0, and the V
/// are 2, 3 and 4.
fn three_sheets() -> Book {
    let sheet = |columns: &[u8], rows| Sheet {
        forbidden: false,
        columns: columns.to_vec(),
        rows: vec![vec![0; columns.len()]; rows],
    };
    Book {
        counts: vec![2, 3, 4],
        sheets: vec![sheet(&[1], 4), sheet(&[0, 2], 0), sheet(&[0, 1, 2], 130)],
    }
}

/// The refusal of the book above with these bytes changed.
fn refusal(changes: &[(usize, u8)]) -> Refusal {
    check(&changed(&three_sheets(), changes)).unwrap_err()
}

#[test]
fn values_that_are_too_large() {
    // The changed byte and what it becomes; then sheet, row, column, and V.
    for (at, value, [sheet, row, column, count]) in [
        (512, 3, [0, 0, 1, 3]),
        (524, 254, [0, 3, 1, 3]),
        (1024, 2, [2, 0, 0, 2]),
        (1025, 3, [2, 0, 1, 3]),
        (1026, 4, [2, 0, 2, 4]),
        // The last row of a block, the first of the next, and the last of the sheet.
        (1024 + 4 * 126 + 2, 9, [2, 126, 2, 4]),
        (1536, 2, [2, 127, 0, 2]),
        (1536 + 4 * 2 + 1, 3, [2, 129, 1, 3]),
    ] {
        let refusal = refusal(&[(at, value)]);
        let named = Refusal::Value {
            place: (at / 4) as u16,
            sheet: sheet as u8,
            row: row as u16,
            column: column as u8,
            value,
            count: count as u8,
        };
        assert_eq!(refusal, named);
        let place = format!("sheet {sheet}, row {row}, column {column}");
        let sentence = format!("refusal 5: {place}: value {value} is not below its V, {count}");
        assert_eq!(refusal.to_string(), sentence);
    }
}

#[test]
fn filler_that_is_not_zero() {
    let after = ": a byte after its values is not zero";
    let unused = ", which is unused: a byte is not zero";
    for (at, sheet, row, used) in [
        (513, 0, 0, true),
        (527, 0, 3, true),
        (528, 0, 4, false),
        (1019, 0, 126, false),
        (1027, 2, 0, true),
        (1024 + 4 * 126 + 3, 2, 126, true),
        (1539, 2, 127, true),
        (1536 + 4 * 2 + 3, 2, 129, true),
        (1536 + 4 * 3, 2, 130, false),
        (1536 + 4 * 126 + 3, 2, 253, false),
    ] {
        let refusal = refusal(&[(at, 1)]);
        let place = (at / 4) as u16;
        let named = Refusal::Filler {
            place,
            sheet,
            row,
            used,
        };
        assert_eq!(refusal, named);
        let what = if used { after } else { unused };
        let sentence = format!("refusal 6: sheet {sheet}, row {row}{what}");
        assert_eq!(refusal.to_string(), sentence);
    }
}

/// The first in the file is named, of two in a row, of two rows and of two sheets.
#[test]
fn the_first_fault_is_named() {
    let large = "refusal 5: sheet 2, row 0, column 0: value 7 is not below its V, 2";
    for later in [1025, 1027, 1028, 1531, 1536] {
        let refusal = refusal(&[(1024, 7), (later, 200)]);
        assert_eq!(refusal.to_string(), large, "{later}");
    }
    let filler = "refusal 6: sheet 0, row 4, which is unused: a byte is not zero";
    let refusal = refusal(&[(528, 1), (1024, 7)]);
    assert_eq!(refusal.to_string(), filler);
}

/// "Refusal 5 lets 255 pass": it is no fault in the place of a value, and hides none after it.
#[test]
fn any_in_a_row() {
    for at in [512, 524, 1024, 1025, 1026, 1024 + 4 * 126 + 2, 1536] {
        let bytes = changed(&three_sheets(), &[(at, 255)]);
        assert!(check(&bytes).is_ok(), "{at}");
        let place = RowPlace::of(&bytes, (at / 4) as u16).expect("a row");
        assert_eq!((place.byte, place.column), (None, None), "{at}");
    }
    let large = "refusal 5: sheet 2, row 0, column 2: value 4 is not below its V, 4";
    let filler = "refusal 6: sheet 2, row 0: a byte after its values is not zero";
    for before in [&[][..], &[1024], &[1025], &[1024, 1025]] {
        for (at, value, sentence) in [(1026, 4, large), (1027, 1, filler), (1027, 255, filler)] {
            let mut changes: Vec<_> = before.iter().map(|&at| (at, 255)).collect();
            changes.push((at, value));
            assert_eq!(refusal(&changes).to_string(), sentence);
        }
    }
}

/// In the bytes after the values and in unused rows 255 is no more than any other number.
#[test]
fn any_where_there_is_no_column() {
    for (at, sentence) in [
        (513, "sheet 0, row 0: a byte after its values is not zero"),
        (527, "sheet 0, row 3: a byte after its values is not zero"),
        (528, "sheet 0, row 4, which is unused: a byte is not zero"),
        (
            1019,
            "sheet 0, row 126, which is unused: a byte is not zero",
        ),
        (
            1536 + 4 * 3,
            "sheet 2, row 130, which is unused: a byte is not zero",
        ),
    ] {
        let named = [255, 254, 1].map(|value| refusal(&[(at, value)]));
        assert_eq!(named, [named[0]; 3]);
        assert_eq!(named[0].to_string(), format!("refusal 6: {sentence}"));
    }
}

/// The same three sheets as forbidden ones, of 3, 0 and 130 rows that rise; the V are 2, 3 and 32.
fn three_forbidden(changes: &[(usize, u8)]) -> Vec<u8> {
    let mut book = three_sheets();
    book.counts[2] = 32;
    book.sheets[0].rows = (0..3).map(|value| vec![value]).collect();
    let row = |n: u8| vec![n / 96, n / 32 % 3, n % 32];
    book.sheets[2].rows = (0..130).map(row).collect();
    let sheets = book.sheets.iter_mut();
    sheets.for_each(|sheet| sheet.forbidden = true);
    changed(&book, changes)
}

/// "the first row not above the one before it in its sheet": it may repeat it, or be below it, and the one before
/// may stand in the block before.
#[test]
fn rows_that_do_not_rise() {
    assert_eq!(
        check(&three_forbidden(&[])).map(|book| book.columns()),
        Ok(3)
    );
    for (changes, place, sheet, row) in [
        (&[(516, 0)][..], 129, 0, 1),
        (&[(512, 2)], 129, 0, 1),
        (&[(512, 1), (516, 2)], 130, 0, 2),
        (&[(1030, 0)], 257, 2, 1),
        (&[(1024, 1)], 257, 2, 1),
        // The last row of a block, the first of the next, and the last of the sheet.
        (&[(1024 + 4 * 126 + 2, 29)], 256 + 126, 2, 126),
        (&[(1538, 30)], 384, 2, 127),
        (&[(1537, 0), (1538, 0)], 384, 2, 127),
        (&[(1546, 0)], 386, 2, 129),
        // Of two the first.
        (&[(1546, 0), (1538, 30)], 384, 2, 127),
        (&[(1546, 0), (516, 0)], 129, 0, 1),
    ] {
        let bytes = three_forbidden(changes);
        let refusal = check(&bytes).unwrap_err();
        assert_eq!(refusal, Refusal::Rising { place, sheet, row });
        let before = row - 1;
        let sentence = format!(
            "refusal 7: sheet {sheet}, row {row}: it is not above row {before}, \
             and rows of a forbidden sheet rise"
        );
        assert_eq!(refusal.to_string(), sentence);
        let at = RowPlace::of(&bytes, place).expect("a row");
        assert_eq!(
            (at.sheet, at.row, at.used, at.byte),
            (sheet, row, true, None)
        );
        assert!(!at.rises);
    }
}

/// "after 5 and 6": where a byte is wrong anywhere, rows that don't rise are not named. And only a forbidden sheet's
/// rows have to.
#[test]
fn rows_that_need_not_rise() {
    let large = "refusal 5: sheet 2, row 129, column 2: value 32 is not below its V, 32";
    let filler = "refusal 6: sheet 2, row 130, which is unused: a byte is not zero";
    for (at, value, sentence) in [(1546, 32, large), (1550, 1, filler)] {
        let refusal = check(&three_forbidden(&[(516, 0), (at, value)])).unwrap_err();
        assert_eq!(refusal.to_string(), sentence);
    }
    let plain = three_forbidden(&[(24, 1), (516, 0), (512, 2)]);
    assert!(check(&plain).is_ok());
    assert!((128..512).all(|place| RowPlace::of(&plain, place).is_none_or(|at| at.rises)));
}

/// "255 is refused with 5", in a forbidden sheet; after the values it is filler there too.
#[test]
fn any_in_a_forbidden_sheet() {
    for (at, sheet, row, column) in [
        (512, 0, 0, 1),
        (520, 0, 2, 1),
        (1025, 2, 0, 1),
        (1538, 2, 127, 2),
        (1546, 2, 129, 2),
    ] {
        let refusal = check(&three_forbidden(&[(at, 255)])).unwrap_err();
        assert_eq!(
            (refusal.number(), usize::from(refusal.place())),
            (5, at / 4)
        );
        let place = format!("sheet {sheet}, row {row}, column {column}");
        let sentence = format!("refusal 5: {place}: a forbidden sheet may not have 255");
        assert_eq!(refusal.to_string(), sentence);
    }
    let refusal = check(&three_forbidden(&[(1027, 255)])).unwrap_err();
    let filler = "refusal 6: sheet 2, row 0: a byte after its values is not zero";
    assert_eq!(refusal.to_string(), filler);
}

/// Every place that there is, in the book and after it: the rows come in turn, and the rest is none.
#[test]
fn every_place_is_a_row_or_none() {
    // The most rows of so many blocks, and one more.
    let edges = [127, 128, 254, 255, 381, 382, 508].map(|rows| regular(3, 4, 8, rows, 3));
    for book in edges.into_iter().chain([three_sheets(), harbour()]) {
        let bytes = write(&book);
        let mut places = 128..=65_535;
        let mut next = || places.next().map(|place| RowPlace::of(&bytes, place));
        for (sheet, Sheet { rows, .. }) in book.sheets.iter().enumerate() {
            for row in 0..rows.len().div_ceil(127) * 127 {
                let place = next().flatten().expect("a row");
                assert_eq!((place.sheet.into(), place.row.into()), (sheet, row));
                assert_eq!(place.used, row < rows.len());
                assert_eq!((place.byte, place.column, place.rises), (None, None, true));
                // After the last row of a block comes its check.
                assert!(row % 127 < 126 || next() == Some(None));
            }
        }
        assert!(places.all(|place| RowPlace::of(&bytes, place).is_none()));
        assert!((0..128).all(|place| RowPlace::of(&bytes, place).is_none()));
    }
}

/// The first wrong byte of a row, whatever stands before it in the book.
#[test]
fn the_byte_and_the_column() {
    let bytes = changed(&three_sheets(), &[(1024, 2), (1034, 4), (1039, 1)]);
    let at = |place| RowPlace::of(&bytes, place).map(|place| (place.byte, place.column));
    assert_eq!(at(256), Some((Some(0), Some(0))));
    assert_eq!(at(257), Some((None, None)));
    assert_eq!(at(258), Some((Some(2), Some(2))));
    assert_eq!(at(259), Some((Some(3), None)));
    let cut = &bytes[..1034];
    assert_eq!(RowPlace::of(cut, 258), None);
    assert_eq!(RowPlace::of(cut, 257), RowPlace::of(&bytes, 257));
}
