//! Refusal 3: every field of the head, just past its limits and at them.

use conformance::{changed, harbour, regular, tiny, write};
use fitting::{check, FieldName, Refusal};

/// The harbour book with these bytes changed is refused with 3, at this offset, by this sentence.
fn refused(changes: &[(usize, u8)], offset: u16, sentence: &str) {
    let refusal = check(&changed(&harbour(), changes)).unwrap_err();
    assert_eq!(refusal.to_string(), format!("refusal 3: {sentence}"));
    assert!(matches!(refusal, Refusal::Head { .. }));
    assert_eq!(refusal.place(), offset, "{sentence}");
}

#[test]
fn letters() {
    for (byte, value, letters) in [
        (0, b'f', "fGB1"),
        (3, b'2', "FGB2"),
        (3, b' ', "hexadecimal 46 47 42 20"),
        (0, 0, "hexadecimal 00 47 42 31"),
        (1, 255, "hexadecimal 46 FF 42 31"),
    ] {
        let sentence = format!("the letters, {letters}, are not FGB1");
        refused(&[(byte, value)], 0, &sentence);
    }
}

/// Each is wrong at the byte that is changed.
#[test]
fn fields_of_a_byte() {
    let lines = "\
        4 0 the number of columns C, 0, is not 1 to 16
        4 17 the number of columns C, 17, is not 1 to 16
        5 9 the number of sheets S, 9, is not 0 to 8
        6 1 byte 6, 1, is not zero
        7 255 byte 7, 255, is not zero
        8 0 column 0's V, 0, is not 1 to 32
        10 33 column 2's V, 33, is not 1 to 32
        11 1 column 3's V, 1, is not zero, though C is 3
        23 255 column 15's V, 255, is not zero, though C is 3
        24 0 sheet 0's width, 0, is not 1 to 4 or 129 to 132
        32 5 sheet 1's width, 5, is not 1 to 4 or 129 to 132
        24 128 sheet 0's width, 128, is not 1 to 4 or 129 to 132
        32 133 sheet 1's width, 133, is not 1 to 4 or 129 to 132
        32 255 sheet 1's width, 255, is not 1 to 4 or 129 to 132
        25 3 sheet 0's first column number, 3, is not below C, 3
        26 3 sheet 0's second column number, 3, is not below C, 3
        26 0 sheet 0's second column number, 0, is not above 0
        34 1 sheet 1's second column number, 1, is not above 1
        27 1 sheet 0's third column number, 1, is not zero, though its width is 2
        36 255 sheet 1's fourth column number, 255, is not zero, though its width is 2
        29 1 byte 5 of sheet 0's entry, 1, is not zero
        40 1 byte 0 of sheet 2's entry, 1, is not zero, though S is 2
        47 1 byte 7 of sheet 2's entry, 1, is not zero, though S is 2
        87 255 byte 7 of sheet 7's entry, 255, is not zero, though S is 2
        88 1 byte 88, 1, is not zero
        507 128 byte 507, 128, is not zero";
    for line in lines.lines().map(str::trim) {
        let mut words = line.splitn(3, ' ');
        let mut word = || words.next().expect("a byte, a value, a sentence");
        let (byte, value) = (word().parse().unwrap(), word().parse().unwrap());
        refused(&[(usize::from(byte), value)], byte, word());
    }
}

/// A wrong count shows in a field after it, and the sentence has the count.
#[test]
fn fields_that_another_makes_wrong() {
    refused(&[(4, 4)], 11, "column 3's V, 0, is not 1 to 32");
    refused(&[(4, 2)], 10, "column 2's V, 2, is not zero, though C is 2");
    let no_width = "sheet 2's width, 0, is not 1 to 4 or 129 to 132";
    refused(&[(5, 3)], 40, no_width);
    let no_sheet = "byte 0 of sheet 1's entry, 2, is not zero, though S is 1";
    refused(&[(5, 1)], 32, no_sheet);
    let not_above = "sheet 0's second column number, 1, is not above 1";
    refused(&[(25, 1)], 26, not_above);
    let no_number = "sheet 0's second column number, 1, is not zero, though its width is 1";
    refused(&[(24, 1)], 26, no_number);
    let zero = "sheet 0's third column number, 0, is not above 1";
    refused(&[(24, 3)], 27, zero);
    // A forbidden sheet has its width without the mark.
    refused(&[(24, 129)], 26, no_number);
    refused(&[(24, 131)], 27, zero);
}

/// Two bytes, and the place is the lower one's.
#[test]
fn row_counts() {
    let many = "sheet 0's row count, 509, is not 0 to 508";
    refused(&[(30, 253), (31, 1)], 30, many);
    let high = "sheet 1's row count, 65283, is not 0 to 508";
    refused(&[(39, 255)], 38, high);
}

#[test]
fn a_field_has_a_name_and_what_stands_there() {
    let found = |byte, value| match check(&changed(&harbour(), &[(byte, value)])) {
        Err(Refusal::Head { field, .. }) => (field.name, field.found),
        other => panic!("{other:?}"),
    };
    use FieldName::*;
    assert_eq!(found(0, b'X'), (Letters, u32::from_le_bytes(*b"XGB1")));
    assert_eq!(found(4, 0), (Columns, 0));
    assert_eq!(found(5, 9), (Sheets, 9));
    assert_eq!(found(8, 33), (Count { column: 0 }, 33));
    assert_eq!(found(24, 0), (Width { sheet: 0 }, 0));
    assert_eq!(found(34, 1), (Number { sheet: 1, index: 1 }, 1));
    assert_eq!(found(39, 2), (Rows { sheet: 1 }, 515));
    assert_eq!(found(29, 7), (EntryByte { sheet: 0, byte: 5 }, 7));
    assert_eq!(found(100, 3), (Byte { offset: 100 }, 3));
    // A name that no head has is one to write all the same.
    let fifth = Number { sheet: 9, index: 4 };
    assert_eq!(fifth.to_string(), "sheet 9's next column number");
}

/// At every limit nothing is wrong: no offset of these books is that of a wrong field.
#[test]
fn right_fields() {
    let largest = regular(16, 32, 8, 508, 4);
    let books = [tiny(), harbour(), regular(16, 1, 8, 0, 1), largest];
    // Forbidden sheets of every width; without rows none has to rise.
    let forbidden = (1..=4).map(|width| {
        let mut book = regular(4, 32, 8, 0, width);
        let sheets = book.sheets.iter_mut();
        sheets.for_each(|sheet| sheet.forbidden = true);
        book
    });
    for book in books.into_iter().chain(forbidden) {
        let bytes = write(&book);
        assert!(check(&bytes).is_ok());
        for place in 0..=65_535 {
            let read = Refusal::read(3 << 16 | u64::from(place), &bytes);
            assert_eq!(read, Some(Refusal::Other { number: 3, place }));
        }
    }
}
