//! The boundary to Gecode, where the build found it: the only unsafe code of this crate.

#![allow(unsafe_code)]

use conformance::Order;
use std::ffi::c_void;
use std::ptr::null_mut;

/// Sixteen domains.
pub type Domains = [u32; 16];

#[cfg(gecode)]
unsafe extern "C" {
    fn gecode_version() -> u32;
    fn gecode_distance() -> u32;
    fn gecode_tables(book: *const u8) -> *mut c_void;
    fn gecode_free_tables(tables: *mut c_void);
    fn gecode_open(tables: *mut c_void);
    fn gecode_finish(tables: *const c_void, distance: u32);
    fn gecode_run(
        tables: *const c_void,
        distance: u32,
        orders: *const Order,
        count: usize,
        domains: *mut Domains,
    );
}

/// Gecode's version, as 6.2.0; none where the build didn't find it.
pub fn version() -> Option<String> {
    // SAFETY: it takes nothing and gives a number, as 600200.
    let number = cfg!(gecode).then(|| unsafe { gecode_version() })?;
    let (major, minor, patch) = (number / 100_000, number / 100 % 1_000, number % 100);
    Some(format!("{major}.{minor}.{patch}"))
}

/// Which choices of a search keep a copy: every one, or one of so many, Gecode's default. Either is
/// faster on some books.
pub fn distances() -> [u32; 2] {
    // SAFETY: it takes nothing and gives a number.
    [1, unsafe { gecode_distance() }]
}

/// The sheets of a book as Gecode's tuple sets, and a session at its opening.
pub struct Tables<'a> {
    /// The library has accepted it.
    book: &'a [u8],
    built: *mut c_void,
}

impl<'a> Tables<'a> {
    /// None where there is no Gecode, or the book is refused.
    pub fn of(book: &'a [u8]) -> Option<Self> {
        let accepted = fitting::check_number(book) >> 16 == 0;
        (cfg!(gecode) && accepted).then(|| {
            let tables = Self::built_of(book);
            // SAFETY: the tables are there.
            unsafe { gecode_open(tables.built) }
            tables
        })
    }

    /// The same built anew, for a run.
    pub fn again(&self) -> Self {
        Self::built_of(self.book)
    }

    fn built_of(book: &'a [u8]) -> Self {
        // SAFETY: an accepted book has every byte that its head speaks of.
        let built = unsafe { gecode_tables(book.as_ptr()) };
        Self { book, built }
    }

    /// One run of accepted orders, for its time alone: nobody asks for the domains.
    pub fn run(&self, orders: &[Order], distance: u32) {
        // SAFETY: the tables and the orders are there. Without places nothing is written.
        let (start, count) = (orders.as_ptr(), orders.len());
        unsafe { gecode_run(self.built, distance, start, count, null_mut()) }
    }

    /// One finish at the opening, for its time alone.
    pub fn finish(&self, distance: u32) {
        // SAFETY: the tables are there; a dead opening or none is no opening to it.
        unsafe { gecode_finish(self.built, distance) }
    }

    /// The domains at the opening and after each of these accepted orders; those of a finish are the
    /// full set's.
    pub fn shown(&self, orders: &[Order], distance: u32) -> Vec<Domains> {
        let (start, count) = (orders.as_ptr(), orders.len());
        let mut shown = vec![[0; 16]; count + 1];
        // SAFETY: as above, and there is a place for the opening and one for each order.
        unsafe { gecode_run(self.built, distance, start, count, shown.as_mut_ptr()) }
        shown
    }
}

impl Drop for Tables<'_> {
    fn drop(&mut self) {
        // SAFETY: nothing uses them after this.
        unsafe { gecode_free_tables(self.built) }
    }
}

/// Never called: there are no tables without Gecode.
#[cfg(not(gecode))]
mod absent {
    use super::*;

    pub unsafe fn gecode_version() -> u32 {
        0
    }
    pub unsafe fn gecode_distance() -> u32 {
        0
    }
    pub unsafe fn gecode_tables(_: *const u8) -> *mut c_void {
        null_mut()
    }
    pub unsafe fn gecode_free_tables(_: *mut c_void) {}
    pub unsafe fn gecode_open(_: *mut c_void) {}
    pub unsafe fn gecode_finish(_: *mut c_void, _: u32) {}
    pub unsafe fn gecode_run(_: *mut c_void, _: u32, _: *const Order, _: usize, _: *mut Domains) {}
}
#[cfg(not(gecode))]
use absent::*;
