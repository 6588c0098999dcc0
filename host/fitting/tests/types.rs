//! What every type is good for, how large it is, and how much stack a run takes.

use conformance::{regular, write};
use fitting::*;
use std::fmt::Debug;
use std::hash::Hash;
use std::thread;

fn plain<T: Clone + Debug + Send + Sync + Unpin>() {}
fn small<T: Copy + Debug + Eq + Hash + Send + Sync>() {}
fn error<T: std::error::Error + Copy + Eq + Send + Sync + 'static>() {}

#[test]
fn every_type_goes_anywhere() {
    plain::<Space>();
    plain::<OrderList>();
    plain::<AnswerIter>();
    plain::<ValueIter>();
    small::<Book>();
    small::<Sheet>();
    small::<Cell>();
    small::<Values>();
    small::<Order>();
    small::<Answers>();
    small::<Answer>();
    small::<Status>();
    small::<Outcome>();
    small::<Field>();
    small::<FieldName>();
    small::<RowPlace>();
    error::<Refusal>();
    error::<OrderRefusal>();
    error::<Full>();
}

/// A list and a space can be statics: both are made when the program is compiled.
#[test]
fn sizes() {
    static LIST: OrderList = OrderList::new();
    static SPACE: Space = Space::new();
    assert_eq!(size_of_val(&LIST), 2_048 + size_of::<usize>());
    assert_eq!(size_of_val(&SPACE), 18_504);
    assert_eq!(size_of::<Book>(), size_of::<&[u8]>());
    assert_eq!(size_of::<Values>(), 4);
    assert_eq!(size_of::<Cell>(), 2);
    assert!(size_of::<Refusal>() <= 16 && size_of::<Answers>() <= 32);
}

/// The deepest search, sixteen columns set one after the other, on a stack of 64 KiB.
#[test]
fn a_run_needs_little_stack() {
    let bytes = write(&regular(16, 32, 0, 0, 1));
    let list = OrderList::of([Order::Finish; OrderList::MOST]).unwrap();
    let mut space = Box::new(Space::new());
    thread::scope(|scope| {
        let thread = thread::Builder::new().stack_size(65_536);
        let run =
            || check(&bytes).map(|book| book.run(&list, &mut space).last().full_set().is_some());
        let found = thread.spawn_scoped(scope, run).unwrap().join().unwrap();
        assert_eq!(found, Ok(true));
    });
}
