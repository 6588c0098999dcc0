//! Runs orders over a book file and prints a line for each answer:
//! `cargo run --release -p fitting --example run -- ../books/harbour.bin mark narrow 2 1 finish back 1`.
//! The exit status is 0 if the run is accepted, 1 if it is not, 2 if the words can't be read.

use fitting::{Order, OrderList, Outcome, Refusal, Space, Values};
use std::process::ExitCode;
use std::{env, error::Error, fs};

fn main() -> ExitCode {
    let mut words = env::args().skip(1);
    let (Some(file), Some(orders)) = (words.next(), orders(words)) else {
        eprintln!(
            "name a book file, then orders: narrow COLUMN MASK, mark, back MARK, finish, \
             finish-within TRIES"
        );
        return ExitCode::from(2);
    };
    match lines(&file, orders) {
        Ok(lines) => {
            print!("{lines}");
            ExitCode::SUCCESS
        }
        Err(error) => {
            println!("{error}");
            ExitCode::FAILURE
        }
    }
}

fn orders(mut words: impl Iterator<Item = String>) -> Option<Vec<Order>> {
    let mut orders = Vec::new();
    while let Some(word) = words.next() {
        let mut number = || words.next()?.parse().ok();
        orders.push(match word.as_str() {
            "narrow" => Order::Narrow {
                column: u8::try_from(number()?).ok()?,
                values: Values::from_mask(number()?),
            },
            "mark" => Order::Mark,
            "back" => Order::Back {
                mark: u8::try_from(number()?).ok()?,
            },
            "finish" => Order::Finish,
            "finish-within" => Order::FinishWithin {
                limit: u16::try_from(number()?).ok()?.try_into().ok()?,
            },
            _ => return None,
        });
    }
    Some(orders)
}

fn lines(file: &str, orders: Vec<Order>) -> Result<String, Box<dyn Error>> {
    let bytes = fs::read(file).map_err(|error| format!("{file}: {error}"))?;
    let book = fitting::check(&bytes)?;
    let list = OrderList::of(orders).map_err(Refusal::from)?;
    let mut space = Space::new();
    let mut lines = String::new();
    for (i, answer) in book.run(&list, &mut space).iter().enumerate() {
        let what = match (answer.refusal(), answer.outcome()) {
            (Some(refusal), _) => refusal.to_string(),
            (None, Some(Outcome::Found)) => "found".to_string(),
            (None, Some(Outcome::None)) => "no full set".to_string(),
            (None, Some(Outcome::Stopped)) => {
                format!("not decided within {} tries", answer.tries().unwrap_or(0))
            }
            (None, None) => format!("{}, depth {}", answer.status(), answer.depth()),
        };
        let domains = answer.domains().map(|left| format!("{:b}", left.mask()));
        lines += &format!("{i}: {what}: {}\n", domains.collect::<Vec<_>>().join(" "));
    }
    Ok(lines)
}
