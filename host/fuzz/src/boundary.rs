//! All unsafe code of this crate: libFuzzer's calls, and the library called as safe Rust can't.

#![allow(unsafe_code)]

use crate::try_bytes;
use conformance::{harbour, write, Tally, MARK};
use std::ffi::{c_int, c_void};
use std::ptr;
use std::sync::{LazyLock, Mutex};

unsafe extern "C" {
    fn fitting_check(book: *const u8, book_len: usize) -> u64;
    fn fitting_run(
        book: *const u8,
        book_len: usize,
        orders: *const u8,
        orders_len: usize,
        answers: *mut u8,
        answers_len: usize,
    ) -> u64;

    fn pthread_attr_init(attributes: *mut Attributes) -> c_int;
    fn pthread_attr_setstack(attributes: *mut Attributes, at: *mut c_void, len: usize) -> c_int;
    fn pthread_create(
        thread: *mut usize,
        attributes: *const Attributes,
        start: extern "C" fn(*mut c_void) -> *mut c_void,
        with: *mut c_void,
    ) -> c_int;
    fn pthread_join(thread: usize, result: *mut *mut c_void) -> c_int;
}

static TRIED: LazyLock<Mutex<Tally>> = LazyLock::new(Default::default);

/// libFuzzer's call with one input. A difference panics, and a panic that would leave this function
/// aborts: libFuzzer then keeps the input.
///
/// # Safety
///
/// There must be `len` bytes at `data`.
#[export_name = "LLVMFuzzerTestOneInput"]
unsafe extern "C" fn one_input(data: *const u8, len: usize) -> c_int {
    let bytes = if len == 0 {
        &[]
    } else {
        // SAFETY: libFuzzer lends so many bytes during this call.
        unsafe { std::slice::from_raw_parts(data, len) }
    };
    let mut tried = TRIED.lock().expect("no input panicked before");
    try_bytes(bytes, &mut tried);
    0
}

/// Prints what was tried; `blocks.c` calls it when the process ends.
#[export_name = "fitting_fuzz_summary"]
extern "C" fn summary() {
    if let Ok(tried) = TRIED.lock() {
        println!("{tried}");
    }
}

/// The number that the library gives for no bytes at a null pointer, which no slice has.
pub fn check_null() -> u64 {
    // SAFETY: of no bytes the library reads none.
    unsafe { fitting_check(ptr::null(), 0) }
}

/// The numbers of two runs with null pointers and no bytes there: of all three, and of the orders
/// and the space alone.
pub fn run_nulls() -> [u64; 2] {
    let (none, space) = (ptr::null(), ptr::null_mut());
    let book = write(&harbour());
    // SAFETY: of no bytes the library reads none, and into a space without bytes it writes none.
    unsafe {
        [
            fitting_run(none, 0, none, 0, space, 0),
            fitting_run(book.as_ptr(), book.len(), none, 0, space, 0),
        ]
    }
}

/// A list of one order that is called two: the library reads 8 bytes past the end of a piece of the
/// heap, for valgrind to notice. The C library's pieces have at least 24 bytes, so nothing else is
/// read where valgrind isn't there.
pub fn run_one_too_long() -> u64 {
    let book = write(&harbour());
    let orders: Box<[u8]> = MARK.into();
    let mut answers = vec![0; 3 * 72];
    // SAFETY: the space and the book are as long as said. The list isn't: see above.
    unsafe {
        fitting_run(
            book.as_ptr(),
            book.len(),
            orders.as_ptr(),
            orders.len() + 8,
            answers.as_mut_ptr(),
            answers.len(),
        )
    }
}

/// The C library's attributes of a thread, 56 bytes on x86-64.
#[repr(C, align(16))]
struct Attributes([u8; 56]);

/// What a thread is to do, and where its stack stood then.
struct Task<F> {
    call: Option<F>,
    entry: usize,
}

extern "C" fn start<F: FnOnce()>(task: *mut c_void) -> *mut c_void {
    let here = 0_u8;
    // SAFETY: `stack_used` hands over its task, and waits for this thread to end.
    let task = unsafe { &mut *task.cast::<Task<F>>() };
    task.entry = ptr::from_ref(&here).addr();
    if let Some(call) = task.call.take() {
        call();
    }
    ptr::null_mut()
}

/// The bytes of stack that a call uses: it is made in a thread whose stack was painted before.
pub fn stack_used<F: FnOnce() + Send>(call: F) -> usize {
    const PAINT: u8 = 0xB7;
    let mut stack = vec![PAINT; 1 << 20];
    let mut attributes = Attributes([0; 56]);
    let mut thread = 0;
    let mut task = Task {
        call: Some(call),
        entry: 0,
    };
    let with = ptr::from_mut(&mut task).cast();
    // SAFETY: the stack and the task outlive the thread, and nobody else looks at them before it
    // has ended.
    unsafe {
        assert_eq!(pthread_attr_init(&mut attributes), 0);
        let at = stack.as_mut_ptr().cast();
        assert_eq!(pthread_attr_setstack(&mut attributes, at, stack.len()), 0);
        let made = pthread_create(&mut thread, &attributes, start::<F>, with);
        assert_eq!(made, 0);
        assert_eq!(pthread_join(thread, ptr::null_mut()), 0);
    }
    let lowest = stack.iter().position(|&byte| byte != PAINT);
    let lowest = stack.as_ptr().addr() + lowest.unwrap_or(stack.len());
    task.entry - lowest
}
