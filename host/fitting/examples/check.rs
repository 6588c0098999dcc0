//! Checks book files: `cargo run --release -p fitting --example check -- FILE…` prints a line for each.
//! The exit status is 0 if all are accepted, 1 if one is not, 2 if none is named.

use std::path::Path;
use std::process::ExitCode;
use std::{env, fs};

fn main() -> ExitCode {
    let files: Vec<_> = env::args_os().skip(1).collect();
    if files.is_empty() {
        eprintln!("name one or more book files");
        return ExitCode::from(2);
    }
    let mut all_accepted = true;
    for file in files.iter().map(Path::new) {
        let read = fs::read(file).map_err(|error| error.to_string());
        let line = read.and_then(|bytes| verdict(&bytes));
        all_accepted &= line.is_ok();
        println!("{}: {}", file.display(), line.unwrap_or_else(|wrong| wrong));
    }
    ExitCode::from(u8::from(!all_accepted))
}

fn verdict(bytes: &[u8]) -> Result<String, String> {
    let number = fitting::check_number(bytes);
    let book = fitting::check(bytes).map_err(|refusal| format!("{number}, {refusal}"))?;
    let (columns, sheets) = (book.columns(), book.sheets().len());
    Ok(format!("{number}, accepted: C {columns}, S {sheets}"))
}
