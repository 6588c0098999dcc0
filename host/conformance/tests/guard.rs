//! The library reads only the bytes that it is lent, and writes none but the answers.

#![allow(unsafe_code)]
#![cfg(all(target_os = "linux", target_arch = "x86_64"))]

use conformance::{harbour, narrow, regular, space_for, write, Case, Run, FINISH, MARK};
use std::ffi::{c_int, c_void};
use std::{ptr, slice};

const PAGE: usize = 4_096;
const NOTHING: c_int = 0;
const READ: c_int = 1;
const READ_AND_WRITE: c_int = 3;
const PRIVATE_AND_ANONYMOUS: c_int = 0x22;

unsafe extern "C" {
    fn mmap(
        at: *mut c_void,
        len: usize,
        may: c_int,
        kind: c_int,
        file: c_int,
        from: i64,
    ) -> *mut c_void;
    fn mprotect(at: *mut c_void, len: usize, may: c_int) -> c_int;
}

/// Memory between two pages that nobody may touch: a step outside ends the process. It is kept until
/// the process ends.
struct Guarded {
    middle: *mut u8,
    length: usize,
}

impl Guarded {
    fn new(pages: usize) -> Self {
        let length = pages * PAGE;
        let all = length + 2 * PAGE;
        // SAFETY: a fresh mapping of its own, at an address that the system chooses.
        let start = unsafe { mmap(ptr::null_mut(), all, NOTHING, PRIVATE_AND_ANONYMOUS, -1, 0) };
        assert_ne!(start as isize, -1, "no memory");
        let middle = start.cast::<u8>().wrapping_add(PAGE);
        Self { middle, length }
    }

    fn protect(&self, may: c_int) {
        // SAFETY: the middle pages are this mapping's own, and no slice of them is alive here.
        let failed = unsafe { mprotect(self.middle.cast(), self.length, may) };
        assert_eq!(failed, 0);
    }

    /// Puts these bytes at the very start, or else at the very end, of the middle pages, where one
    /// may then do this with them.
    fn put(&self, bytes: &[u8], at_start: bool, may: c_int) -> *mut u8 {
        let room = self.length - bytes.len();
        let place = self.middle.wrapping_add(if at_start { 0 } else { room });
        self.protect(READ_AND_WRITE);
        // SAFETY: the place has room for the bytes and may be written now.
        unsafe { ptr::copy_nonoverlapping(bytes.as_ptr(), place, bytes.len()) };
        self.protect(may);
        place
    }
}

/// Memory for a book, for orders and for answers, each guarded.
struct Lent([Guarded; 3]);

impl Lent {
    fn new() -> Self {
        Self([5, 1, 6].map(Guarded::new))
    }

    /// Both calls give what the reference gives, all lent at the start and all lent at the end.
    fn agrees(&self, book: &[u8], orders: &[u8], space: usize) {
        let before = vec![0xA5; space];
        let mut expected = before.clone();
        let checked = reference::check(book);
        let number = reference::run(book, orders, &mut expected);
        for at_start in [true, false] {
            let Self([of_book, of_orders, of_space]) = self;
            let lent_book = of_book.put(book, at_start, READ);
            let lent_orders = of_orders.put(orders, at_start, READ);
            let lent_space = of_space.put(&before, at_start, READ_AND_WRITE);
            // SAFETY: so many bytes were just put there, each into a mapping of its own.
            let (lent_book, lent_orders, lent_space) = unsafe {
                (
                    slice::from_raw_parts(lent_book, book.len()),
                    slice::from_raw_parts(lent_orders, orders.len()),
                    slice::from_raw_parts_mut(lent_space, space),
                )
            };
            assert_eq!(fitting::check_number(lent_book), checked);
            let given = fitting::run_number(lent_book, lent_orders, lent_space);
            assert_eq!(given, number);
            assert!(lent_space == expected, "the space of {number}");
            assert!(lent_book == book && lent_orders == orders);
        }
    }
}

#[test]
fn no_step_outside_of_any_length() {
    let lent = Lent::new();
    let mut bytes = write(&regular(16, 32, 8, 508, 4));
    bytes.resize(5 * PAGE, 0);
    for length in (0..=bytes.len()).filter(|length| length % 512 < 5 || length % 512 > 507) {
        lent.agrees(&bytes[..length], &MARK, 144);
    }
}

#[test]
fn no_step_outside_of_seeded_books_and_runs() {
    let lent = Lent::new();
    for seed in 0..10_000 {
        lent.agrees(&Case::new(seed).bytes, &MARK, 144);
        let run = Run::new(seed);
        lent.agrees(&run.book, &run.orders, run.space);
    }
}

/// Lists whose end is the page's, of every length, and spaces that are exact, or short by one.
#[test]
fn no_step_outside_of_any_list() {
    let lent = Lent::new();
    let book = write(&harbour());
    let orders = [MARK, narrow(2, 1), FINISH].concat().repeat(90);
    for length in 0..=orders.len() {
        let list = &orders[..length];
        lent.agrees(&book, list, space_for(list) - 1);
        lent.agrees(&book, list, space_for(list));
    }
}
