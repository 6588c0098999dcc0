//! The two calls, on bytes from anywhere.

use crate::{check_number, run_number, Answers, Book, OrderList, Refusal};

/// Checks a book, and gives a view of it if it is accepted. If it is not, the refusal says what is wrong,
/// and where.
///
/// ```
/// use fitting::Refusal;
///
/// // The smallest book: one column of two values, no sheet.
/// let mut bytes = [0; 512];
/// bytes[..4].copy_from_slice(b"FGB1");
/// bytes[4] = 1;
/// bytes[8] = 2;
/// bytes[508..].copy_from_slice(&0x3142_474A_u32.to_le_bytes()); // the block's check
///
/// let book = fitting::check(&bytes)?;
/// assert_eq!(book.columns(), 1);
/// assert_eq!(book.values(0).to_string(), "0 1");
///
/// bytes[8] = 3;
/// assert_eq!(fitting::check(&bytes), Err(Refusal::Check { block: 0 }));
/// # Ok::<(), Refusal>(())
/// ```
pub fn check(book: &[u8]) -> Result<Book<'_>, Refusal> {
    let refusal = Refusal::read(check_number(book), book);
    refusal.map_or(Ok(Book::accepted(book)), Err)
}

/// Runs a list over the bytes of a book from the opening, and gives the answers, read from the space.
///
/// The book may be wrong here and the space too short; with an accepted book and a
/// [`Space`](crate::Space) take [`Book::run`], which is never refused. The space may be longer than
/// [`space_for`](crate::space_for) says. What is over is not touched, and a refused run touches
/// nothing. A refused *order* refuses no run: its answer says so.
///
/// ```
/// # let book = conformance::write(&conformance::harbour());
/// use fitting::{OrderList, Refusal};
///
/// let mut list = OrderList::new();
/// list.mark()?.finish()?;
/// let mut space = [0; fitting::space_for(2)];
/// let answers = fitting::run(&book, &list, &mut space)?;
/// assert_eq!(answers.accepted(), 2);
///
/// let refusal = fitting::run(&book, &list, &mut [0; 99]).unwrap_err();
/// assert_eq!(refusal, Refusal::Space { needed: 216 });
/// assert_eq!(fitting::run(b"no book", &list, &mut space), Err(Refusal::Length));
/// # Ok::<(), Refusal>(())
/// ```
pub fn run<'a>(book: &[u8], list: &OrderList, space: &'a mut [u8]) -> Result<Answers<'a>, Refusal> {
    let number = run_number(book, list.as_bytes(), space);
    match Refusal::read(number, book) {
        None => {
            let columns = Book::accepted(book).columns();
            let accepted = number as usize;
            Ok(Answers::written(space, list.len(), columns, accepted))
        }
        Some(refusal) => Err(refusal),
    }
}
