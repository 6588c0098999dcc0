//! The vectors that `vectors.txt` describes, in the order of the index.
//!
//! ```text
//! > words of the paper
//! name: what the vector of this name shows
//!     book harbour 4=0 mend        a book of the kit's contents, and what is done to its bytes in turn: a
//!                                  byte set (88..508=255 sets several), `length=N`, or the checks mended
//!     orders 16 times mark         orders in words, or 5.0.0.0.0.0.0.0 for their bytes; lines are joined
//!     orders narrow 0 4 back 1 within 2     a finish is `finish`, or `within` its limit
//!     space 216                    the bytes of the answer space
//!     fill 0                       what each of them is before the run
//! ```
//!
//! Without such a line it is the harbour book, no order, a space with some bytes to spare, and the usual
//! fill.

use super::{folder, read_contents, Vector, FILL};
use crate::{back, finish, mend, narrow, write, FINISH, MARK};
use std::fs;
use std::str::{FromStr, SplitWhitespace};

pub(super) fn vectors() -> Vec<Vector> {
    let mut paper = "";
    let mut vectors: Vec<Vector> = Vec::new();
    for line in include_str!("vectors.txt").lines() {
        if let Some(words) = line.strip_prefix("> ") {
            paper = words;
        } else if let Some((label, words)) = line.trim_start().split_once(' ') {
            match (line.starts_with(' '), vectors.last_mut()) {
                (true, Some(vector)) => vector.set(label, words.split_whitespace()),
                _ => vectors.push(Vector::new(line, paper)),
            }
        }
    }
    vectors
}

impl Vector {
    fn new(line: &str, paper: &str) -> Self {
        let (name, shows) = line.split_once(": ").expect("a name and what it shows");
        Self {
            name: name.into(),
            shows: shows.into(),
            paper: paper.into(),
            book: named("harbour"),
            book_name: "harbour".into(),
            orders: Vec::new(),
            space: None,
            fill: FILL,
        }
    }

    fn set(&mut self, label: &str, mut words: SplitWhitespace) {
        match label {
            "book" => {
                let name = words.next().expect("the name of a book");
                self.book = named(name);
                let changes: Vec<&str> = words.collect();
                changes.iter().for_each(|word| change(&mut self.book, word));
                let name = if changes.is_empty() { name } else { &self.name };
                self.book_name = name.into();
            }
            "orders" => self.orders.extend(orders(words)),
            "space" => self.space = words.next().map(number),
            "fill" => self.fill = words.next().map_or(FILL, number),
            _ => panic!("{}: no such line: {label}", self.name),
        }
    }
}

/// The bytes of the book whose contents have this name.
fn named(name: &str) -> Vec<u8> {
    let path = folder().join(format!("contents/{name}.txt"));
    let lines = fs::read_to_string(&path);
    let lines = lines.unwrap_or_else(|error| panic!("{}: {error}", path.display()));
    write(&read_contents(&lines))
}

fn change(bytes: &mut Vec<u8>, word: &str) {
    match word.split_once('=') {
        None if word == "mend" => mend(bytes),
        Some(("length", length)) => bytes.resize(number(length), 0),
        Some((place, value)) => {
            let (first, end) = match place.split_once("..") {
                Some((first, end)) => (number(first), number(end)),
                None => (number(place), number::<usize>(place) + 1),
            };
            bytes[first..end].fill(number(value));
        }
        None => panic!("no such change of a book: {word}"),
    }
}

fn orders(mut words: SplitWhitespace) -> Vec<u8> {
    let mut times = 1;
    let mut orders = Vec::new();
    while let Some(word) = words.next() {
        match word {
            "mark" => orders.extend(MARK),
            "finish" => orders.extend(FINISH),
            "within" => orders.extend(finish(words.next().map_or(0, number))),
            "back" => orders.extend(back(words.next().map_or(0, number))),
            "narrow" => {
                let column = words.next().map_or(0, number);
                orders.extend(narrow(column, words.next().map_or(0, number)));
            }
            _ if words.clone().next() == Some("times") => {
                times = number(word);
                words.next();
            }
            _ => orders.extend(word.split('.').map(number::<u8>)),
        }
    }
    orders.repeat(times)
}

fn number<T: FromStr>(word: &str) -> T {
    let number = word.parse().ok();
    number.unwrap_or_else(|| panic!("no such number: {word}"))
}
