//! The boundary to the proved library: the only unsafe code of this crate.

#![allow(unsafe_code)]

// As crates/service_c/src/lib.rt has them, a slice being a pointer and then its length; tests/declared.rs compares.
unsafe extern "C" {
    fn fitting_check(book: *const u8, book_len: usize) -> u64;
    fn fitting_run(
        book: *const u8,
        book_len: usize,
        orders: *const u8,
        orders_len: usize,
        answers: *mut u8,
        answers_len: usize,
    ) -> u64;
}

/// Checks a book, and gives the library's own number: refusal × 65,536 + place, or, accepted,
/// columns × 16 + sheets.
///
/// ```
/// # let bytes = conformance::write(&conformance::harbour());
/// assert_eq!(fitting::check_number(&bytes), 3 * 16 + 2);
/// assert_eq!(fitting::check_number(b"no book"), 65_536);
/// ```
pub fn check_number(book: &[u8]) -> u64 {
    // SAFETY: the library takes any bytes. It reads only the `book_len` bytes at `book`, which the slice
    // keeps readable and unchanged during the call; it writes none of them and keeps no pointer.
    unsafe { fitting_check(book.as_ptr(), book.len()) }
}

/// Runs a list of orders over a book, both as bytes, and gives the library's own number: refusal ×
/// 65,536 + place, or, accepted, the number of accepted orders. Answer i is written into bytes 72 × i
/// to 72 × i + 71 of the space.
///
/// ```
/// # let book = conformance::write(&conformance::harbour());
/// let mut space = [9; 75];
/// assert_eq!(fitting::run_number(&book, &[], &mut space), 0);
/// assert_eq!(space[..5], [0, 1, 0, 0, 0]);
/// assert_eq!(space[72..], [9, 9, 9]);
/// assert_eq!(fitting::run_number(&book, &[1, 2, 3], &mut space), 10 * 65_536);
/// ```
pub fn run_number(book: &[u8], orders: &[u8], answers: &mut [u8]) -> u64 {
    // SAFETY: the library takes any bytes. It reads only those of the two slices, which stay
    // readable and unchanged during the call, and writes only into the space, which is lent to it
    // alone and so lies apart from both; it keeps no pointer.
    unsafe {
        fitting_run(
            book.as_ptr(),
            book.len(),
            orders.as_ptr(),
            orders.len(),
            answers.as_mut_ptr(),
            answers.len(),
        )
    }
}
