//! The files of the kit, as the reference makes them.
//!
//! ```text
//! index.tsv            one line for each vector
//! books/BOOK.bin       books, each once
//! contents/BOOK.txt    what it says, for each that is accepted
//! orders/ORDERS.bin    lists, each once
//! answers/VECTOR.bin   the answer space after the run
//! lines/VECTOR.txt     what the program prints
//! ```

use super::{contents, vectors, Vector};
use crate::spelled;
use std::collections::BTreeMap;

/// The names of the index's fields, which are its first line.
const FIELDS: &str = "name\tbook\torders\tspace\tfill\tcheck\trun\tshows\tpaper";

/// Files by their paths, with / between the parts.
pub type Files = BTreeMap<String, Vec<u8>>;

/// Every file of the kit but those that people write, and the one of the wrong engines.
pub fn files() -> Files {
    let mut files = Files::new();
    files.insert("orders/none.bin".into(), Vec::new());
    let mut index = FIELDS.to_owned() + "\n";
    for vector in vectors() {
        let name = &vector.name;
        let book = shared(&mut files, "books/", &vector.book_name, &vector.book);
        let orders = shared(&mut files, "orders/", name, &vector.orders);
        if let Some(said) = reference::decode(&vector.book) {
            let path = book.replace("books/", "contents/").replace(".bin", ".txt");
            files.insert(path, contents(&said).into());
        }
        let (run, answers) = vector.expected();
        index += &line(&vector, &book, &orders, run);
        let lines = reference::printed(&vector.book, &vector.orders);
        files.insert(format!("answers/{name}.bin"), answers);
        files.insert(format!("lines/{name}.txt"), lines.into());
    }
    files.insert("index.tsv".into(), index.into());
    files
}

/// The path of the file in this folder that has these bytes; a new one gets this name.
fn shared(files: &mut Files, folder: &str, name: &str, bytes: &[u8]) -> String {
    let mut known = files.iter().filter(|(path, _)| path.starts_with(folder));
    if let Some((path, _)) = known.find(|(_, known)| *known == bytes) {
        return path.clone();
    }
    let path = format!("{folder}{name}.bin");
    files.insert(path.clone(), bytes.to_vec());
    path
}

/// The line of a vector in the index.
fn line(vector: &Vector, book: &str, orders: &str, run: u64) -> String {
    let refused = (run >= 65_536).then(|| format!(" ({})", spelled(run)));
    let fields = [
        &vector.name,
        book,
        orders,
        &vector.space().to_string(),
        &vector.fill.to_string(),
        &reference::check(&vector.book).to_string(),
        &run.to_string(),
        &format!("{}{}.", vector.shows, refused.unwrap_or_default()),
        &vector.paper,
    ];
    fields.join("\t") + "\n"
}
