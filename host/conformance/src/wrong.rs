//! Wrong engines: the reference with one edit each, which breaks one sentence of the papers.
//!
//! ```text
//! # what the engine does, in words
//! paper: the sentence that it breaks, word by word
//! file: src/orders.rs      a file of the reference
//! old: some text of it     which stands there once
//! new: what stands there instead
//! noticed: k2-width-4      vectors that were made for it, if there are any
//! ```

use std::collections::BTreeMap;
use std::fs;
use std::path::Path;

/// The file of the kit that says which vectors each wrong engine differs on.
pub const FAULTS: &str = "faults.tsv";

/// One edit of the reference.
#[derive(Clone, Debug, Default)]
pub struct WrongEngine {
    /// The name of its file.
    pub name: String,
    /// What it does, in words.
    pub words: String,
    /// The sentence of the papers that it breaks.
    pub paper: String,
    /// Vectors that must notice it.
    pub noticed: Vec<String>,
    /// File, old text, new text.
    changes: Vec<[String; 3]>,
}

impl WrongEngine {
    /// All of them, in the order of their names.
    pub fn all() -> Vec<Self> {
        let edits = texts("wrong-engines").into_iter();
        let edits = edits.filter(|(name, _)| name.ends_with(".edit"));
        edits.map(|(name, text)| Self::read(&name, &text)).collect()
    }

    fn read(name: &str, text: &str) -> Self {
        let mut engine = Self {
            name: name.trim_end_matches(".edit").into(),
            ..Self::default()
        };
        let (mut file, mut old) = ("", "");
        for line in text.lines() {
            let (label, rest) = line.split_once(' ').unwrap_or((line, ""));
            match label {
                "#" => engine.words = rest.into(),
                "paper:" => engine.paper = rest.into(),
                "file:" => file = rest,
                "old:" => old = rest,
                "new:" => engine.changes.push([file, old, rest].map(String::from)),
                "noticed:" => engine.noticed = rest.split(' ').map(String::from).collect(),
                _ => panic!("{name}: no such line: {line}"),
            }
        }
        engine
    }

    /// A program of the reference with this edit: its files by their names, `src/lib.rs` the root.
    pub fn sources(&self) -> BTreeMap<String, String> {
        let sources = texts("../reference/src").into_iter();
        let mut sources: BTreeMap<_, _> = sources
            .map(|(name, text)| (format!("src/{name}"), text))
            .collect();
        for [file, old, new] in &self.changes {
            let text = sources.get_mut(file).expect("a file of the reference");
            let times = text.matches(&**old).count();
            assert_eq!(times, 1, "{}: in {file} stands not once: {old}", self.name);
            *text = text.replace(&**old, new);
        }
        let runner = include_str!("../wrong-engines/runner.rs");
        sources
            .entry("src/lib.rs".into())
            .or_default()
            .push_str(runner);
        sources
    }
}

/// The files of a folder, which counts from this crate's own, by their names.
fn texts(folder: &str) -> BTreeMap<String, String> {
    let folder = Path::new(env!("CARGO_MANIFEST_DIR")).join(folder);
    let entries = fs::read_dir(folder).expect("a folder").flatten();
    let files = entries.filter(|entry| entry.path().is_file());
    let text = |path| fs::read_to_string(path).expect("a text");
    files
        .map(|file| {
            (
                file.file_name().into_string().expect("a plain name"),
                text(file.path()),
            )
        })
        .collect()
}
