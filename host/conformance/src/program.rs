//! The program `fit`, run in a folder with a book.

use std::env;
use std::fs;
use std::io::{ErrorKind, Write};
use std::path::{Path, PathBuf};
use std::process::{self, Command, Stdio};
use std::thread;
use std::time::Duration;

/// Long enough for the program to read one piece before the next comes.
const PAUSE: Duration = Duration::from_millis(5);

/// The program. It is looked for in the folder that `FITTING_BIN_DIR` names, or else in `target/bin` of
/// the repository. A relative folder counts from this crate's own.
pub fn program() -> PathBuf {
    let folder = env::var_os("FITTING_BIN_DIR").unwrap_or_else(|| "../../target/bin".into());
    let program = Path::new(env!("CARGO_MANIFEST_DIR"))
        .join(folder)
        .join("fit");
    assert!(
        program.is_file(),
        "the program is not at {}: build it, or name its folder in FITTING_BIN_DIR",
        program.display()
    );
    program
}

/// A folder of its own for one test or command, gone when that is over.
#[derive(Debug)]
pub struct Folder(PathBuf);

impl Folder {
    /// The folder of the test of this name.
    pub fn new(test: &str) -> Self {
        let folder = env::temp_dir().join(format!("fit-{}-{test}", process::id()));
        fs::create_dir_all(&folder).expect("a folder for the test");
        Self(folder)
    }

    /// Where it is.
    pub fn path(&self) -> &Path {
        &self.0
    }

    /// What the program prints with this book, if any, as book.bin, and the orders in pieces.
    pub fn prints(&self, book: Option<&[u8]>, orders: &[&[u8]]) -> String {
        let file = self.0.join("book.bin");
        match book {
            Some(book) => fs::write(file, book).expect("book.bin"),
            None => fs::remove_file(file).unwrap_or(()),
        }
        let mut child = Command::new(program())
            .current_dir(&self.0)
            .stdin(Stdio::piped())
            .stdout(Stdio::piped())
            .spawn()
            .expect("the program starts");
        let mut input = child.stdin.take().expect("its input");
        for piece in orders {
            match input.write_all(piece) {
                // It need not read a list to the end that is too long.
                Err(error) if error.kind() == ErrorKind::BrokenPipe => break,
                written => written.expect("the orders are written"),
            }
            if orders.len() > 1 {
                thread::sleep(PAUSE);
            }
        }
        drop(input);
        let output = child.wait_with_output().expect("the program ends");
        assert!(output.status.code().is_some(), "ended by a signal");
        String::from_utf8(output.stdout).expect("text")
    }

    /// It prints what the reference does.
    pub fn agrees(&self, book: &[u8], orders: &[u8]) -> String {
        let printed = self.prints(Some(book), &[orders]);
        assert_eq!(printed, reference::printed(book, orders));
        printed
    }
}

impl Drop for Folder {
    fn drop(&mut self) {
        let _ = fs::remove_dir_all(&self.0);
    }
}
