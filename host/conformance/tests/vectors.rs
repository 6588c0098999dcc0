//! The conformance kit: its files are what the reference makes, and the library and the program
//! agree with each vector.

use conformance::kit::{self, contents, read_contents, Files};
use conformance::wrong::{WrongEngine, FAULTS};
use conformance::{write, Folder, Seen};
use std::collections::BTreeSet;
use std::fs;
use std::path::Path;

/// The files of the kit that no `--bin vectors` writes.
const OTHERS: [&str; 4] = [".gitattributes", "README.md", "try", FAULTS];

/// Adds every file of this folder by its path.
fn gather(folder: &Path, prefix: &str, found: &mut Files) {
    for entry in fs::read_dir(folder).expect("the folder of the kit") {
        let entry = entry.expect("a file");
        let name = entry.file_name().into_string().expect("a plain name");
        let path = format!("{prefix}{name}");
        if entry.path().is_dir() {
            gather(&entry.path(), &format!("{path}/"), found);
        } else {
            found.insert(path, fs::read(entry.path()).expect("a file"));
        }
    }
}

/// No file differs from what `--bin vectors` would write, none is missing, none is too many; and
/// the kit is small enough to be sent about. Most of it are answers of 72 bytes and rows of text: every request
/// adds some hundred files, and 2 MiB leave room for those to come.
#[test]
fn the_files_are_what_the_reference_makes() {
    let again = "write the kit anew: cargo run --release --offline -p conformance --bin vectors";
    let mut found = Files::new();
    gather(&kit::folder(), "", &mut found);
    let bytes: usize = found.values().map(Vec::len).sum();
    assert!(bytes < 2 * 1024 * 1024, "{bytes} bytes");
    for name in OTHERS {
        assert!(found.remove(name).is_some(), "{name} is missing");
    }
    for (path, bytes) in kit::files() {
        let on_disk = found.remove(&path);
        assert!(on_disk == Some(bytes), "{path} differs; {again}");
    }
    assert!(found.is_empty(), "too many: {:?}; {again}", found.keys());
}

/// A text of the kit, read as anybody would read it.
fn read(path: &str) -> String {
    fs::read_to_string(kit::folder().join(path)).expect(path)
}

/// Nine fields and none empty, since a shell's read takes two tabs for one; every name is plain and
/// used once.
#[test]
fn every_line_of_the_index() {
    let mut names = BTreeSet::new();
    let index = read("index.tsv");
    for line in index.lines().skip(1) {
        let fields: Vec<&str> = line.split('\t').collect();
        assert!(fields.len() == 9 && !fields.contains(&""), "{line}");
        assert!(fields[7].ends_with('.') && !line.contains("  "), "{line}");
        let plain = |c: char| c.is_ascii_lowercase() || c.is_ascii_digit() || c == '-';
        assert!(fields[0].chars().all(plain), "{line}");
        assert!(names.insert(fields[0]), "twice: {line}");
    }
    assert_eq!(names.len(), kit::vectors().len());
}

/// The library gives the numbers and the space, the program prints the lines, and the book of an
/// accepted vector follows from its contents.
#[test]
fn the_library_and_the_program_agree_with_each() {
    let folder = Folder::new("kit");
    for vector in kit::vectors() {
        let mut space = vec![vector.fill; vector.space()];
        let run = fitting::run_number(&vector.book, &vector.orders, &mut space);
        assert!((run, space) == vector.expected(), "{}", vector.name);
        conformance::agreed(&vector.book);
        folder.agrees(&vector.book, &vector.orders);
        if let Some(said) = reference::decode(&vector.book) {
            let again = read_contents(&contents(&said));
            assert!(write(&again) == vector.book, "{}", vector.name);
        }
    }
}

/// What the papers' own examples print, by hand: K1 to K10 and the run of document 01, what stays after a
/// finish, and document 002's walk-through. There every domain becomes {1, 2, 3, 4}, which is mask 30: 8 of
/// 15 tuples are left, and none has 3 for x0; then x1 loses 1 and 2, 4 tuples are left, and x2 loses 3 and 4.
/// With "any board" for motor 0 the harbour book prints document 01's run too. Of rows 0 any and 1 3, the short
/// one goes with value 0; and any brings no value back that another sheet has struck. A sheet of all four of 2 motors
/// by 2 boards is done; one of nine pairs but 0 0 is so while one of its columns lacks value 0. H's set takes two tries
/// at the opening, K7's none takes two: a limit of 1 stops both. With width 0 and board 0 forbidden in H, board 0 leaves
/// width 1 alone, and board 1 is in the first set. Of 2 by 2 with 0 0 forbidden, 0 in either column leaves 1 in the other;
/// of 3 by 3 without 0 0 and 0 1 the sheet is done once 0, or both others, are gone.
#[rustfmt::skip]
const EXAMPLES: [(&str, &[&str]); 26] = [
    ("k1-opening", &["0 0 1 0 0 0 7 3 3", "accepted 0"]),
    ("k2-width-4", &["0 0 1 0 0 0 7 3 3", "1 0 2 0 3 0 4 2 2", "accepted 1"]),
    ("k3-board-1", &["0 0 1 0 0 0 7 3 3", "1 0 1 0 3 0 3 1 1", "accepted 1"]),
    ("k4-then-motor-2", &["0 0 1 0 0 0 7 3 3", "1 0 1 0 3 0 3 1 1", "2 0 0 0 0 0 0 0 0", "accepted 2"]),
    ("k5-width-2", &["0 0 1 0 0 0 7 3 3", "1 0 1 0 1 0 2 3 3", "accepted 1"]),
    ("k6-finish", &["0 0 1 0 0 0 7 3 3", "1 0 1 0 0 1 1 1 1", "accepted 1"]),
    ("k7-three-that-differ", &["0 0 1 0 0 0 3 3 3", "1 0 1 0 0 2 0 0 0", "accepted 1"]),
    ("k8-sheet-without-rows", &["0 0 0 0 0 0 0", "1 0 0 0 0 2 0", "accepted 1"]),
    ("k9-no-sheets", &["0 0 1 0 0 0 1 3 2147483647 4294967295", "1 0 1 0 0 1 1 1 1 1", "accepted 1"]),
    ("k10-width-8", &["0 0 1 0 0 0 7 3 3", "1 22 1 0 0 0 7 3 3", "accepted 0"]),
    ("paper-run", &[
        "0 0 1 0 0 0 7 3 3", "1 0 1 1 0 0 7 3 3", "2 0 1 1 3 0 3 1 1", "3 0 1 1 3 1 1 1 1",
        "4 0 1 0 0 0 7 3 3", "5 24 1 0 0 0 7 3 3", "6 0 2 0 3 0 4 2 2", "accepted 5",
    ]),
    ("finish-leaves-the-state", &[
        "0 0 1 0 0 0 7 3 3", "1 0 1 0 0 1 1 1 1", "2 0 1 0 0 0 6 3 3", "3 0 1 0 0 1 2 1 1",
        "4 0 1 1 0 0 6 3 3", "5 0 2 1 3 0 4 2 2", "6 0 2 1 3 1 4 2 2", "7 0 1 0 0 0 6 3 3", "accepted 7",
    ]),
    ("walk-through", &[
        "0 0 1 0 0 0 503 959 895", "1 0 1 0 0 0 22 62 286", "2 0 1 0 0 0 22 30 30", "3 0 1 0 0 0 22 30 30",
        "4 0 1 0 0 0 22 24 6", "5 0 1 0 0 1 2 8 4", "accepted 5",
    ]),
    ("any-board", &[
        "0 0 1 0 0 0 7 3 3", "1 0 1 1 0 0 7 3 3", "2 0 1 1 3 0 3 1 1", "3 0 1 1 3 1 1 1 1",
        "4 0 1 0 0 0 7 3 3", "5 24 1 0 0 0 7 3 3", "6 0 2 0 3 0 4 2 2", "accepted 5",
    ]),
    ("any-row-that-goes", &[
        "0 0 1 0 0 0 3 15", "1 0 1 1 0 0 3 15", "2 0 2 1 1 0 2 8", "3 0 1 0 0 0 3 15", "4 0 1 0 1 0 1 7",
        "5 0 0 0 0 0 0 0", "6 0 0 0 0 2 0 0", "accepted 6",
    ]),
    ("any-of-lost-values", &[
        "0 0 1 0 1 0 1 6 3", "1 0 1 1 1 0 1 6 3", "2 0 2 1 3 0 1 4 1", "3 0 2 1 3 1 1 4 1", "4 0 1 0 1 0 1 6 3",
        "5 0 1 0 3 0 1 4 3", "6 0 1 0 3 1 1 4 1", "accepted 6",
    ]),
    ("done-all-four", &[
        "0 0 1 0 1 0 3 3", "1 0 1 0 1 1 1 1", "2 0 1 1 1 0 3 3", "3 0 1 1 1 0 1 3", "4 0 2 1 1 0 1 2",
        "5 0 1 0 1 0 3 3", "6 0 1 0 1 0 3 1", "accepted 6",
    ]),
    ("done-all-but-the-first", &[
        "0 0 1 0 0 0 7 7", "1 0 1 1 0 0 7 7", "2 0 1 1 0 0 3 7", "3 0 1 1 0 0 3 3", "4 0 1 0 0 0 7 7",
        "5 0 1 1 0 0 7 7", "6 0 1 1 1 0 6 7", "7 0 1 0 0 0 7 7", "8 0 1 1 0 0 7 7", "9 0 1 1 1 0 7 6",
        "10 0 1 1 1 0 5 6", "11 0 1 0 0 0 7 7", "12 0 1 0 0 0 7 5", "13 0 1 0 0 0 5 5", "14 0 1 0 1 0 4 5",
        "accepted 14",
    ]),
    ("tries-of-harbour", &[
        "0 0 1 0 0 0 7 3 3", "1 0 1 0 0 3 0 0 0", "2 0 1 0 0 1 1 1 1", "3 0 1 0 0 1 1 1 1", "4 0 1 0 0 1 1 1 1",
        "5 0 1 0 0 1 1 1 1", "accepted 5",
    ]),
    ("tries-that-end-dead", &[
        "0 0 1 0 0 0 3 3 3", "1 0 1 0 0 3 0 0 0", "2 0 1 0 0 2 0 0 0", "3 0 1 0 0 2 0 0 0", "4 0 1 0 0 2 0 0 0",
        "accepted 4",
    ]),
    ("forbidden-pair-in-harbour", &[
        "0 0 1 0 0 0 7 3 3", "1 0 1 1 0 0 7 3 3", "2 0 2 1 7 0 2 1 1", "3 0 2 1 7 1 2 1 1",
        "4 0 1 0 0 0 7 3 3", "5 24 1 0 0 0 7 3 3", "6 0 1 0 0 1 1 1 2", "7 0 2 0 7 0 4 2 2", "accepted 6",
    ]),
    ("forbidden-without-rows", &[
        "0 0 1 0 1 0 3 7", "1 0 1 0 1 1 1 1", "2 0 1 1 1 0 3 7", "3 0 1 1 1 0 3 5", "4 0 1 1 1 1 1 1", "5 0 1 1 1 0 2 5",
        "6 0 1 0 1 0 3 7", "7 0 0 0 0 0 0 0", "8 0 0 0 0 2 0 0", "accepted 8",
    ]),
    ("forbidden-everything", &[
        "0 0 0 0 0 0 0 0 0", "1 0 0 0 0 2 0 0 0", "2 0 0 1 0 0 0 0 0", "3 0 0 1 0 0 0 0 0", "4 0 0 0 0 0 0 0 0", "accepted 4",
    ]),
    ("forbidden-strike-without-a-cut", &[
        "0 0 1 0 0 0 3 3", "1 0 1 1 0 0 3 3", "2 0 2 1 1 0 2 1", "3 0 2 1 1 1 2 1", "4 0 1 0 0 0 3 3",
        "5 0 1 1 0 0 3 3", "6 0 2 1 1 0 1 2", "7 0 2 1 1 1 1 2", "8 0 1 0 0 0 3 3", "9 0 1 1 0 0 3 3",
        "10 0 1 1 1 0 3 2", "11 0 1 1 1 1 1 2", "12 0 1 0 0 0 3 3", "13 0 1 0 1 0 2 3", "14 0 2 0 1 0 2 1",
        "accepted 14",
    ]),
    ("forbidden-done", &[
        "0 0 1 0 0 0 7 7", "1 0 1 0 0 1 1 4", "2 0 1 1 0 0 7 7", "3 0 1 1 1 0 6 7", "4 0 1 1 1 1 2 1",
        "5 0 1 0 0 0 7 7", "6 0 1 1 0 0 7 7", "7 0 1 1 1 0 7 4", "8 0 1 0 0 0 7 7", "9 0 1 1 0 0 7 7",
        "10 0 1 1 0 0 7 6", "11 0 1 0 0 0 7 7", "12 0 1 1 0 0 7 7", "13 0 1 1 1 0 6 2", "14 0 1 0 0 0 7 7",
        "15 0 1 0 0 0 3 7", "accepted 15",
    ]),
    ("forbidden-three-that-differ", &[
        "0 0 1 0 0 0 3 3 3", "1 0 1 0 0 3 0 0 0", "2 0 1 0 0 2 0 0 0", "3 0 1 0 0 2 0 0 0", "4 0 0 0 0 0 0 0 0",
        "5 0 0 0 0 2 0 0 0", "accepted 5",
    ]),
];

#[test]
fn the_papers_examples() {
    for (name, expected) in EXAMPLES {
        let lines = read(&format!("lines/{name}.txt"));
        assert!(
            lines.lines().eq(expected.iter().copied()),
            "{name}: {lines}"
        );
    }
}

/// The tries of every answer, which no line prints, by hand. Of four columns of three values that differ in pairs, each
/// value of the first leaves two of the second, and both end dead: three tries, three times. Seven columns of two values
/// before K7's three: each doubles the tries after it, and adds two.
#[rustfmt::skip]
const TRIES: [(&str, &[u16]); 17] = [
    ("paper-run", &[0, 0, 0, 1, 0, 0, 0]),
    ("k6-finish", &[0, 2]),
    ("k7-three-that-differ", &[0, 2]),
    ("k8-sheet-without-rows", &[0, 0]),
    ("k9-no-sheets", &[0, 3]),
    ("finish-when-decided", &[0, 0, 0, 0]),
    ("tries-of-harbour", &[0, 1, 2, 2, 2, 2]),
    ("tries-that-end-dead", &[0, 1, 2, 2, 2]),
    ("tries-to-the-last-value", &[0, 3, 4, 4, 4]),
    ("tries-of-single-columns", &[0, 15, 16, 16, 0, 14, 15, 0, 0, 12, 13]),
    ("tries-of-256-and-more", &[0, 255, 256, 257, 509, 510, 510, 510]),
    ("limit-65535-enough", &[0, 65_535, 65_535]),
    ("limit-too-large", &[0, 2, 0, 0, 0, 0, 0, 2]),
    ("limits-that-rise", &[0, 1, 2, 3, 4, 5, 6, 7, 8, 9, 9, 9]),
    ("forbidden-pair-in-harbour", &[0, 0, 0, 0, 0, 0, 1, 0]),
    ("forbidden-three-that-differ", &[0, 1, 2, 2, 0, 0]),
    ("forbidden-four-of-three-values", &[0, 1, 8, 9, 9, 9, 0, 0, 1, 2, 0]),
];

#[test]
fn the_tries_of_the_examples() {
    for (name, expected) in TRIES {
        let space = fs::read(kit::folder().join(format!("answers/{name}.bin"))).expect(name);
        let answers = space.as_chunks().0.iter().take(expected.len());
        let tries: Vec<u16> = answers.map(|answer| Seen::read(answer).tries).collect();
        assert_eq!(tries, expected, "{name}");
    }
}

/// Every wrong engine can be made, and the file of faults has a line for each and no other. What
/// the lines say is tried by `--bin wrong_engines -- --check`, which takes some minutes.
#[test]
fn every_wrong_engine_has_its_line() {
    let (faults, engines) = (read(FAULTS), WrongEngine::all());
    let names: BTreeSet<String> = kit::vectors().into_iter().map(|it| it.name).collect();
    assert_eq!(faults.lines().count(), 1 + engines.len());
    for (engine, line) in engines.iter().zip(faults.lines().skip(1)) {
        assert!(engine.sources().len() > 1 && !engine.paper.is_empty());
        let fields: Vec<&str> = line.split('\t').collect();
        let [words, count, first] = fields[..] else {
            panic!("not three fields: {line}");
        };
        assert_eq!(words, engine.words);
        let count: usize = count.parse().expect("a number");
        let first: Vec<&str> = first.split(' ').collect();
        assert_eq!(first.len(), count.clamp(1, 8), "{line}");
        assert!(first.iter().all(|name| names.contains(*name)), "{line}");
    }
}
