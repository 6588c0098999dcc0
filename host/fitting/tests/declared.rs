//! The two calls are declared as the library has them: by name, by order, by type, and by what comes
//! back.
//!
//! ```text
//! crates/service_c/src/lib.rt    src/library.rs          include/fitting.h
//! book: &[u8]                    book: *const u8         const uint8_t *book
//!                                book_len: usize         size_t book_len
//! answers: &mut [u8]             answers: *mut u8        uint8_t *answers
//!                                answers_len: usize      size_t answers_len
//! ```

use conformance::{example_orders, harbour, write};
use std::fs;
use std::mem;
use std::process::Command;

/// A file with single blanks for all white space, laid out as if each function stood in one line.
fn source(path: &str) -> String {
    let path = format!("{}/{path}", env!("CARGO_MANIFEST_DIR"));
    let text = fs::read_to_string(&path).unwrap_or_else(|error| panic!("{path}: {error}"));
    let words: Vec<&str> = text.split_whitespace().collect();
    words.join(" ").replace("( ", "(").replace(", )", ")")
}

/// The functions that the library exports, as another language declares them: a slice and a whole
/// function are written so.
fn exported(
    slice: impl Fn(&str, &str) -> String,
    whole: impl Fn(&str, &str) -> String,
) -> Vec<String> {
    let source = source("../../crates/service_c/src/lib.rt");
    let functions = source.split("#[unsafe(no_mangle)] pub extern \"C\" fn ").skip(1);
    let function = |function: &str| {
        let (name, rest) = function.split_once('(').expect("(");
        let (arguments, result) = rest.split_once(')').expect(")");
        assert!(result.starts_with(" -> u64 "), "{name}");
        let slices = arguments.split(", ").map(|argument| {
            let (name, kind) = argument.split_once(": ").expect("name: type");
            slice(name, kind)
        });
        whole(name, &slices.collect::<Vec<_>>().join(", "))
    };
    functions.map(function).collect()
}

/// A slice is a pointer, to bytes that are read or to bytes that are written, then its length.
fn pointer(kind: &str, read: &'static str, written: &'static str) -> &'static str {
    match kind {
        "&[u8]" => read,
        "&mut [u8]" => written,
        _ => panic!("no pointer is known for {kind}"),
    }
}

#[test]
fn every_declaration_in_rust_is_the_librarys() {
    let slice = |name: &str, kind: &str| {
        let pointer = pointer(kind, "*const u8", "*mut u8");
        format!("{name}: {pointer}, {name}_len: usize")
    };
    let exported = exported(slice, |name, slices| format!("fn {name}({slices}) -> u64;"));
    let check = "fn fitting_check(book: *const u8, book_len: usize) -> u64;";
    let run = "fn fitting_run(book: *const u8, book_len: usize, orders: *const u8, \
               orders_len: usize, answers: *mut u8, answers_len: usize) -> u64;";
    assert_eq!(exported, [check, run], "what crates/service_c exports");
    for boundary in ["src/library.rs", "../fuzz/src/boundary.rs"] {
        let source = source(boundary);
        let (_, block) = source.split_once("unsafe extern \"C\" {").expect("a block");
        let (block, _) = block.split_once('}').expect("its end");
        let functions = block.split_inclusive(';').map(str::trim);
        let functions = functions.filter(|function| function.starts_with("fn fitting_"));
        assert_eq!(functions.collect::<Vec<_>>(), exported, "{boundary}");
    }
}

#[test]
fn every_declaration_in_c_is_the_librarys() {
    let slice = |name: &str, kind: &str| {
        let pointer = pointer(kind, "const uint8_t *", "uint8_t *");
        format!("{pointer}{name}, size_t {name}_len")
    };
    let exported = exported(slice, |name, slices| format!("uint64_t {name}({slices})"));
    let header = source("include/fitting.h");
    let parts = header.split("/*");
    let code: String = parts
        .map(|part| part.split_once("*/").map_or(part, |(_, code)| code))
        .collect();
    // Outside of comments a semicolon ends a prototype.
    let (prototypes, _) = code.rsplit_once(';').expect("a prototype");
    let prototypes: Vec<&str> = prototypes.split(';').collect();
    assert_eq!(prototypes.len(), exported.len());
    for (prototype, exported) in prototypes.iter().zip(exported) {
        assert!(prototype.ends_with(&exported), "{prototype}: {exported}");
    }
}

/// The library's global symbols of this kind, each with nm's letter in front.
fn symbols(kind: &str) -> Vec<String> {
    let library = env!("FITTING_LIBRARY");
    let mut nm = Command::new("nm");
    let output = nm.args(["--extern-only", kind, library]).output();
    let output = output.expect("nm is there: it comes with the linker");
    assert!(output.status.success(), "nm {library}");
    let text = String::from_utf8(output.stdout).expect("text");
    let address = |letter: char| letter.is_ascii_hexdigit();
    let lines = text.lines().map(|line| line.trim_start_matches(address));
    let lines = lines.filter_map(|line| Some(line.strip_prefix(' ')?.trim().to_string()));
    lines.collect()
}

/// The exported calls are all that the library gives; and what it asks for allocates nothing.
#[test]
fn the_library_has_these_calls_and_nothing_else() {
    let mut given = symbols("--defined-only");
    given.sort();
    let mut exported = exported(|_, _| String::new(), |name, _| format!("T {name}"));
    exported.sort();
    assert_eq!(given, exported);
    for asked in symbols("--undefined-only") {
        let moves = ["U memcmp", "U memcpy", "U memmove", "U memset"];
        assert!(moves.contains(&asked.as_str()), "{asked}");
    }
}

/// The lengths of a book, its orders and a space: no two are the same, and only one can be that of a
/// book.
const LENGTHS: [usize; 3] = [1_536, 48, 520];

/// Every order that these three can have; the first is as declared.
const ORDERS: [[usize; 3]; 6] = [
    [0, 1, 2],
    [0, 2, 1],
    [1, 0, 2],
    [1, 2, 0],
    [2, 0, 1],
    [2, 1, 0],
];

/// The number, and all memory afterwards, of a call that takes the three in this order, and their
/// lengths in this. Each has room for the longest: whatever is taken for its length, a call stays within.
fn called(
    run: fn(&[u8], &[u8], &mut [u8]) -> u64,
    parts: [usize; 3],
    lengths: [usize; 3],
) -> (u64, [Vec<u8>; 3]) {
    let orders = example_orders().concat();
    let mut memory = [write(&harbour()), orders, vec![0xA5; LENGTHS[2]]];
    for (part, length) in memory.iter_mut().zip(LENGTHS) {
        assert_eq!(part.len(), length);
        part.resize(LENGTHS[0], 0xEE);
    }
    let [book, orders, mut answers] = parts.map(|part| mem::take(&mut memory[part]));
    let [b, o, a] = lengths.map(|part| LENGTHS[part]);
    let number = run(&book[..b], &orders[..o], &mut answers[..a]);
    for (part, bytes) in parts.into_iter().zip([book, orders, answers]) {
        memory[part] = bytes;
    }
    (number, memory)
}

/// What a wrong order in the declaration or in the call would do, all 36 ways of it: a call through
/// it is the right call with pointers and lengths exchanged. Just one way gives what the independent
/// version gives and leaves book and orders as they were: as declared.
#[test]
fn one_order_of_pointers_and_lengths_is_right() {
    let declared = ORDERS[0];
    let expected = called(reference::run, declared, declared);
    assert_eq!(expected.0, 5, "document 01's example");
    for parts in ORDERS {
        for lengths in ORDERS {
            let right = called(fitting::run_number, parts, lengths) == expected;
            let as_declared = [parts, lengths] == [declared; 2];
            assert_eq!(right, as_declared, "parts {parts:?}, lengths {lengths:?}");
        }
    }
}
