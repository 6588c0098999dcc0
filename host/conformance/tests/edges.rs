//! The edges of documents 01 and 02, each with the number that it must give.

use conformance::{agreed, changed, harbour, mend, one_forbidden, refused, regular, tiny, write};
use conformance::{Book, BLOCK};

/// The file that readers of the documents try first.
#[test]
fn the_harbour_file_is_harbour() {
    let file = include_bytes!("../../../books/harbour.bin");
    assert_eq!(file[..], write(&harbour()));
}

#[test]
fn smallest_harbour_and_largest() {
    assert_eq!(agreed(&write(&tiny())), 16);
    assert_eq!(agreed(&write(&harbour())), 3 * 16 + 2);
    for width in 1..=4 {
        let bytes = write(&regular(16, 32, 8, 508, width));
        assert_eq!(bytes.len(), 16_896);
        assert_eq!(agreed(&bytes), 16 * 16 + 8);
    }
}

/// The number that a book gives with some bytes changed, in words: `at=value`, and + between changes
/// that are made together.
fn agreed_with(book: &Book, word: &str) -> u64 {
    let changes = word.split('+').map(|change| {
        let (at, value) = change.split_once('=').expect("at=value");
        (at.parse().unwrap(), value.parse().unwrap())
    });
    agreed(&changed(book, &changes.collect::<Vec<_>>()))
}

/// Each of these words gives the number that stands after them.
fn each_gives(book: &Book, changes: &[(&str, u64)]) {
    for (words, number) in changes {
        for word in words.split(' ') {
            assert_eq!(agreed_with(book, word), *number, "changed {word}");
        }
    }
}

/// Width has V 3, motor 2, board 2.
#[test]
fn changes_of_the_harbour_head() {
    let changes = [
        ("8=32 512=2+513=1", 50),
        ("4=4+11=32", 66),
        ("0=102 2=88", refused(3, 0)),
        ("4=0 4=17 4=255", refused(3, 4)),
        ("5=9", refused(3, 5)),
        ("6=1", refused(3, 6)),
        ("7=128", refused(3, 7)),
        ("8=0 8=33", refused(3, 8)),
        ("10=33", refused(3, 10)),
        ("11=1 4=4", refused(3, 11)),
        ("23=1", refused(3, 23)),
        ("24=0 24=5", refused(3, 24)),
        ("25=3", refused(3, 25)),
        ("24=1 25=1 26=0 26=3", refused(3, 26)),
        ("24=3 24=4 27=2", refused(3, 27)),
        ("29=1", refused(3, 29)),
        ("31=2", refused(3, 30)),
        ("5=1", refused(3, 32)),
        ("5=3", refused(3, 40)),
        ("87=1", refused(3, 87)),
        ("507=1+88=1", refused(3, 88)),
        ("507=1", refused(3, 507)),
    ];
    each_gives(&harbour(), &changes);
}

/// Sheet 0 is block 1 with 4 rows of width and motor, sheet 1 is block 2 with 3 rows of motor and
/// board. So rows start at bytes 512, 516, 520 and 524, and at 1,024, 1,028 and 1,032.
#[test]
fn changes_of_the_harbour_rows() {
    let changes = [
        ("512=2 513=1 524=2 525=1 1024=1 1033=1", 50),
        ("512=3 512=254 513=2 513=254", refused(5, 128)),
        ("514=1 515=1 515=255", refused(6, 128)),
        ("524=3 525=2", refused(5, 131)),
        ("526=1 527=1", refused(6, 131)),
        ("528=1 528=3 529=2 531=1", refused(6, 132)),
        ("1016=1 1019=1 1019=255", refused(6, 254)),
        ("1024=2 1025=2 1025=254", refused(5, 256)),
        ("1026=1 1027=128", refused(6, 256)),
        ("1032=2 1033=2", refused(5, 258)),
        ("1034=1 1035=1", refused(6, 258)),
        ("1036=1 1037=255 1039=1", refused(6, 259)),
        ("1531=1 1531=128", refused(6, 382)),
        // With 3 rows said, the fourth is an unused one; with 5, the one after it is used.
        ("30=3", refused(6, 131)),
        ("30=5+528=2+529=1", 50),
        ("30=5+528=3", refused(5, 132)),
        ("30=5+530=1", refused(6, 132)),
    ];
    each_gives(&harbour(), &changes);
}

/// "Refusal 5 lets 255 pass", in each value's place, and in no other; the bytes before it are too large
/// whatever a signed byte or its lower bits would say. It hides no other fault.
#[test]
fn any_in_the_harbour_rows() {
    let changes = [
        ("512=255 513=255 512=255+513=255 525=255", 50),
        ("1024=255 1025=255 1032=255 1033=255", 50),
        ("512=254 513=254 512=128 512=127 513=32", refused(5, 128)),
        (
            "512=255+513=254 512=254+513=255 512=255+513=2",
            refused(5, 128),
        ),
        ("514=255 515=255 512=255+514=255 514=254", refused(6, 128)),
        ("512=255+513=255+515=1", refused(6, 128)),
        ("525=254 524=255+525=254 521=255+525=254", refused(5, 131)),
        ("526=255 527=255 524=255+525=255+526=255", refused(6, 131)),
        ("528=255 529=255 530=255 531=255", refused(6, 132)),
        ("525=255+528=255 528=254", refused(6, 132)),
        ("1019=255 1019=255+1025=254", refused(6, 254)),
        ("1025=254 512=255+1025=254", refused(5, 256)),
        ("1531=255 1025=255+1531=255", refused(6, 382)),
        // With 3 rows said, the fourth is an unused one; with 5, the one after it is used.
        ("30=3+524=255", refused(6, 131)),
        ("30=5+528=255 30=5+529=255", 50),
        ("30=5+530=255", refused(6, 132)),
    ];
    each_gives(&harbour(), &changes);
}

/// Of a column of 1 value and of one of 32, on both sides of a check.
#[test]
fn any_whatever_the_values() {
    for values in [1, 32] {
        let changes = [
            ("512=255 1016=255 1024=255 1016=255+1024=255", 17),
            ("1016=254 1016=254+1024=255", refused(5, 254)),
            ("1024=254 1016=255+1024=254", refused(5, 256)),
            ("1017=255 1016=255+1017=255", refused(6, 254)),
            ("1025=255 1024=255+1025=255", refused(6, 256)),
            ("1028=255 1024=255+1028=255", refused(6, 257)),
        ];
        each_gives(&regular(1, values, 1, 128, 1), &changes);
    }
}

/// "Width byte 129 to 132 marks a forbidden sheet of width 1 to 4." H's rows rise in both sheets.
#[test]
fn width_bytes_of_harbour() {
    let changes = [
        ("24=130 32=130 24=130+32=130", 50),
        (
            "24=0 24=5 24=127 24=128 24=133 24=194 24=255",
            refused(3, 24),
        ),
        (
            "32=0 32=5 32=127 32=128 32=133 32=194 32=255",
            refused(3, 32),
        ),
        ("24=129", refused(3, 26)),
        ("24=131 24=132", refused(3, 27)),
        ("32=129", refused(3, 34)),
        ("40=129 40=130", refused(3, 40)),
        // Of one column, with its number alone; and of three.
        (
            "24=129+26=0+512=0+513=0+516=1+520=2+521=0+30=3+524=0+525=0",
            50,
        ),
        ("24=131+27=2", 50),
        ("24=131+27=1", refused(3, 27)),
    ];
    each_gives(&harbour(), &changes);
}

/// "Its rows rise strictly as byte strings", with sheet 0 a forbidden one, or sheet 1, or both: 00 10 11 21 and 00 01 11.
/// "7 for rows that don't rise, place the offset, as in W1, of the first row not above the one before it".
#[test]
fn rows_of_harbour_that_dont_rise() {
    let changes = [
        // 00 10 11 20, 00 01 11 21 and 01 10 11 21: the first byte that differs decides.
        ("24=130+525=0 24=130+516=0+517=1 24=130+513=1", 50),
        ("24=130+516=0", refused(7, 129)),
        ("24=130+512=1 24=130+512=2", refused(7, 129)),
        ("24=130+521=0 24=130+520=0", refused(7, 130)),
        ("24=130+516=2 24=130+516=2+517=1", refused(7, 130)),
        (
            "24=130+524=1 24=130+524=0 24=130+524=0+525=0",
            refused(7, 131),
        ),
        ("32=130+1029=0", refused(7, 257)),
        (
            "32=130+1033=0+1032=0 32=130+1029=1+1033=1+1028=1",
            refused(7, 258),
        ),
        // The first in the file, and nothing of a plain sheet.
        (
            "24=130+32=130+516=0+524=1 24=130+32=130+516=0+1029=0",
            refused(7, 129),
        ),
        ("24=130+32=130+1029=0+1032=0", refused(7, 257)),
        ("516=0 524=0 24=130+1029=0 32=130+516=0", 50),
        // With 3 rows said, the fourth must be zero, and need not rise; with 5, the row of zeros after it must.
        ("24=130+30=3+524=0+525=0", 50),
        ("24=130+30=5", refused(7, 132)),
    ];
    each_gives(&harbour(), &changes);
}

/// "after 5 and 6": wherever these stand.
#[test]
fn a_fault_beside_rows_that_dont_rise() {
    let changes = [
        ("24=130+516=0+512=3", refused(5, 128)),
        ("24=130+516=0+524=3", refused(5, 131)),
        ("24=130+516=0+1024=2 24=130+516=0+1025=254", refused(5, 256)),
        ("24=130+516=0+514=1", refused(6, 128)),
        ("24=130+516=0+519=1", refused(6, 129)),
        ("24=130+516=0+528=1", refused(6, 132)),
        ("24=130+516=0+1019=1", refused(6, 254)),
        ("24=130+516=0+1034=1", refused(6, 258)),
        ("24=130+516=0+1531=1", refused(6, 382)),
        ("24=130+516=0+1034=1+524=3", refused(5, 131)),
        ("24=130+516=0+88=1", refused(3, 88)),
    ];
    each_gives(&harbour(), &changes);
}

/// "255 is refused with 5" in a forbidden sheet, in the place of a value; elsewhere it stays 6.
#[test]
fn any_in_a_forbidden_sheet_of_harbour() {
    let changes = [
        (
            "24=130+524=255 24=130+525=255 24=130+524=255+525=255",
            refused(5, 131),
        ),
        (
            "24=130+512=255 24=130+513=255 24=130+512=255+516=0",
            refused(5, 128),
        ),
        ("24=130+524=254 24=130+524=128", refused(5, 131)),
        ("24=130+526=255 24=130+527=255", refused(6, 131)),
        ("24=130+528=255 24=130+531=255", refused(6, 132)),
        ("24=130+1025=255 32=130+525=255", 50),
        ("32=130+1032=255 32=130+1033=255", refused(5, 258)),
        ("32=130+1034=255", refused(6, 258)),
        ("32=130+1036=255", refused(6, 259)),
    ];
    each_gives(&harbour(), &changes);
}

/// On both sides of a check: rows 0 0 to 7 15, of which row 126 ends block 1 and row 127 begins block 2.
#[test]
fn rows_on_both_sides_of_a_check_that_dont_rise() {
    let rows = (0..130).map(|r| vec![r / 16, r % 16]).collect();
    let changes = [
        ("1017=14 1025=15", 33),
        ("1017=13 1016=0 1016=6", refused(7, 254)),
        (
            "1017=15 1025=14 1024=6 1024=0 1016=8 1016=15",
            refused(7, 256),
        ),
        ("1028=7 1028=0 1024=8+1025=0", refused(7, 257)),
        ("1017=13+1025=14", refused(7, 254)),
        ("1016=255", refused(5, 254)),
        ("1025=255", refused(5, 256)),
        ("1017=13+1535=1", refused(7, 254)),
    ];
    each_gives(&one_forbidden(&[16, 16], rows), &changes);
}

/// Two faults of rows in one book: the first in the file counts, whichever it is. In one row the
/// values come first; sheet 1 begins in another block.
#[test]
fn two_faults_of_harbour_rows() {
    let changes = [
        ("512=3+513=2 512=3+515=1 513=2+514=1", refused(5, 128)),
        ("514=1+515=1", refused(6, 128)),
        ("517=2+520=3 517=2+522=1 517=254+523=1", refused(5, 129)),
        ("518=1+520=3 518=1+521=2 519=1+522=1", refused(6, 129)),
        ("525=2+528=1 525=2+529=2", refused(5, 131)),
        ("527=1+528=1 527=1+528=3", refused(6, 131)),
        ("524=3+1025=2 524=3+1026=1 524=3+1531=1", refused(5, 131)),
        ("526=1+1024=2 526=1+1027=1 526=1+1036=1", refused(6, 131)),
        ("1019=1+1024=2 1019=1+1026=1", refused(6, 254)),
        ("1019=1+1531=1", refused(6, 254)),
        ("516=3+522=1+1024=2+1026=1", refused(5, 129)),
        ("518=1+520=3+1024=2+1026=1", refused(6, 129)),
    ];
    each_gives(&harbour(), &changes);
}

/// The same in two blocks of one sheet: row 126 is the last of block 1, row 127 the first of block 2.
#[test]
fn two_faults_on_both_sides_of_a_check() {
    let changes = [
        ("1016=31+1024=31", 17),
        ("1016=32+1024=32 1016=32+1025=1", refused(5, 254)),
        ("1017=1+1024=32 1019=1+1024=254", refused(6, 254)),
        ("1017=1+1027=1 1019=255+1028=1", refused(6, 254)),
        ("1024=32+1025=1 1024=32+1028=32", refused(5, 256)),
        ("1025=1+1028=32", refused(6, 256)),
    ];
    each_gives(&regular(1, 32, 1, 128, 1), &changes);
}

#[test]
fn the_widest_head() {
    let book = regular(16, 32, 8, 1, 4);
    assert_eq!(agreed(&write(&book)), 264);
    for (at, value) in [(4, 17), (5, 9), (23, 33), (24, 5), (80, 5), (84, 16)] {
        let bytes = changed(&book, &[(at, value)]);
        assert_eq!(agreed(&bytes), refused(3, at), "at {at}");
    }
    // The last entry, with 508 rows that aren't there, with 509 and with 65,535.
    for (low, high, number) in [
        (0xFC, 1, refused(4, 12)),
        (0xFD, 1, refused(3, 86)),
        (0xFF, 0xFF, refused(3, 86)),
    ] {
        let bytes = changed(&book, &[(86, low), (87, high)]);
        assert_eq!(agreed(&bytes), number);
    }
}

#[test]
fn the_lowest_refusal_is_given() {
    let mut bytes = changed(&harbour(), &[(512, 3), (600, 1)]);
    bytes.truncate(2 * BLOCK);
    assert_eq!(agreed(&bytes), refused(4, 3), "4 before 5 and 6");
    bytes[88] = 1;
    mend(&mut bytes);
    assert_eq!(agreed(&bytes), refused(3, 88), "3 before 4");
    bytes[1_023] ^= 1;
    assert_eq!(agreed(&bytes), refused(2, 1), "2 before 3");
    bytes[511] ^= 1;
    assert_eq!(agreed(&bytes), refused(2, 0), "the lowest block");
    bytes.push(0);
    assert_eq!(agreed(&bytes), refused(1, 0), "1 before 2");
    // A block that isn't needed has a wrong check: still 2.
    let mut longer = write(&harbour());
    longer.resize(4 * BLOCK, 0);
    assert_eq!(agreed(&longer), refused(2, 3));
    mend(&mut longer);
    assert_eq!(agreed(&longer), refused(4, 3));
}

#[test]
fn sums_past_32_bits() {
    for value in [0x40, 0x7F, 0x80, 0xFE, 0xFF] {
        for blocks in 1..=33 {
            let mut bytes = vec![value; blocks * BLOCK];
            mend(&mut bytes);
            assert_eq!(agreed(&bytes), refused(3, 0), "{blocks} of {value}");
        }
    }
    // A right head, then blocks whose sums wrap. Where they are needed, 254 gives 5 and a row that is all
    // any is right; where they aren't, 4.
    for blocks in 1..=32 {
        for (byte, number) in [(0xFE, refused(5, 128)), (0xFF, 264)] {
            let mut bytes = write(&regular(16, 32, 8, 508, 4));
            bytes[BLOCK..(1 + blocks) * BLOCK].fill(byte);
            mend(&mut bytes);
            assert_eq!(agreed(&bytes), number, "{blocks} of {byte}");
        }
        let mut tail = write(&tiny());
        tail.resize((1 + blocks) * BLOCK, 0xFF);
        mend(&mut tail);
        assert_eq!(agreed(&tail), refused(4, 1));
    }
    // The zeros of the head: the sum wraps there too.
    let mut bytes = write(&harbour());
    bytes[88..508].fill(0xFF);
    mend(&mut bytes);
    assert_eq!(agreed(&bytes), refused(3, 88));
}
