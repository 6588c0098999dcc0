//! Writes the conformance kit anew: every file of it but those that people write.

use conformance::kit;
use std::fs;
use std::io;

fn main() -> io::Result<()> {
    let folder = kit::folder();
    // Before the folders are cleared: the contents of its books are read from there.
    let files = kit::files();
    for old in fs::read_dir(&folder)? {
        let old = old?.path();
        // Only the folders are cleared: what stands beside them is written by hand or written over.
        if old.is_dir() {
            fs::remove_dir_all(old)?;
        }
    }
    for (path, bytes) in &files {
        let path = folder.join(path);
        fs::create_dir_all(path.parent().unwrap_or(&folder))?;
        fs::write(path, bytes)?;
    }
    let bytes: usize = files.values().map(Vec::len).sum();
    println!("{} files, {bytes} bytes", files.len());
    Ok(())
}
