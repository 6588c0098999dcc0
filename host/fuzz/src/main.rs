//! Writes the first inputs of a fuzz run, and goes through saved inputs again.
//!
//! ```text
//! fuzz seeds FOLDER COUNT    the first inputs, COUNT seeded ones among them, into files
//! fuzz replay PATH...        every input in these files and folders, in the order of their names
//! fuzz one-too-long          a list handed over with a wrong length, for valgrind to notice
//! ```

use conformance::Tally;
use fuzz::{run_one_too_long, seeds, try_bytes};
use std::io::{Error, Result};
use std::path::{Path, PathBuf};
use std::{env, fs};

fn main() -> Result<()> {
    let arguments: Vec<String> = env::args().skip(1).collect();
    let arguments: Vec<&str> = arguments.iter().map(String::as_str).collect();
    match arguments[..] {
        ["seeds", folder, count] => {
            let count = count.parse().map_err(Error::other)?;
            write_seeds(Path::new(folder), count)
        }
        ["replay", ref paths @ ..] => replay(paths),
        ["one-too-long"] => {
            println!("{}", run_one_too_long());
            Ok(())
        }
        _ => Err(Error::other(
            "usage: fuzz seeds FOLDER COUNT, fuzz replay PATH..., fuzz one-too-long",
        )),
    }
}

fn write_seeds(folder: &Path, count: u64) -> Result<()> {
    fs::create_dir_all(folder)?;
    for (number, seed) in seeds(count).iter().enumerate() {
        fs::write(folder.join(format!("{number:05}")), seed)?;
    }
    Ok(())
}

fn replay(paths: &[&str]) -> Result<()> {
    let mut tally = Tally::default();
    for path in paths {
        for file in files(Path::new(path))? {
            try_bytes(&fs::read(file)?, &mut tally);
        }
    }
    println!("{tally}");
    Ok(())
}

/// The files of a folder in the order of their names; a file is itself.
fn files(path: &Path) -> Result<Vec<PathBuf>> {
    if path.is_file() {
        return Ok(vec![path.to_owned()]);
    }
    let entries = fs::read_dir(path)?.map(|entry| Ok(entry?.path()));
    let mut files = entries.collect::<Result<Vec<_>>>()?;
    files.sort_unstable();
    Ok(files)
}
