//! Serves buyers' clicks over one book: a small web host on nothing but `std`.
//!
//!     cargo run --release -p fitting --example click -- ../books/harbour.bin 127.0.0.1:8080
//!     curl 'http://127.0.0.1:8080/?mark&narrow=2:0'
//!     {"status":"open","finish":null,"left":[[0, 1], [0], [0]]}
//!
//! The query is the buyer's list: narrow=COLUMN:VALUE,VALUE or mark or back=MARK or finish, in turn.
//! The answer is JSON: the values left in each column, or, after a finish, those of the full set. A
//! refused order has status 422, and the body says which and why. The first line printed is the address.
//!
//! A finish that is "stopped" isn't decided yet: it took as many tries as a page waits for. The page says
//! so, and asks again with a larger limit, finish=TRIES, if the buyer wants to wait.

use fitting::{Book, Order, OrderList, Refusal, Space, Values};
use std::io::{self, BufRead, BufReader, Read, Write};
use std::net::{TcpListener, TcpStream};
use std::num::NonZeroU16;
use std::time::Duration;
use std::{env, error::Error, fmt::Display, fs, thread};

const THREADS: usize = 4;
const LONGEST_HEAD: u64 = 65_536;

/// The tries of a finish that names no limit: so few that the page is in time on a hard book too.
const USUAL_TRIES: NonZeroU16 = NonZeroU16::new(2_000).unwrap();

const WRONG: &str = "400 Bad Request";
const REFUSED: &str = "422 Unprocessable Content";
const ORDERS: &str =
    "an order is narrow=COLUMN:VALUE,VALUE or mark or back=MARK or finish or finish=TRIES, 1 to 65535";

/// A status and a body.
type Reply = (&'static str, String);

fn main() -> Result<(), Box<dyn Error>> {
    let mut words = env::args().skip(1);
    let (Some(file), Some(address)) = (words.next(), words.next()) else {
        return Err("name a book file and an address, such as 127.0.0.1:8080".into());
    };
    let bytes = fs::read(file)?;
    let book = fitting::check(&bytes).map_err(|refusal| refusal.to_string())?;
    let listener = TcpListener::bind(address)?;
    println!("http://{}/", listener.local_addr()?);
    thread::scope(|scope| {
        for _ in 0..THREADS {
            scope.spawn(|| serve(&listener, book));
        }
    });
    Ok(())
}

/// Each thread has a list and a space of its own, and uses them again for every click.
fn serve(listener: &TcpListener, book: Book) {
    let (mut list, mut space) = (OrderList::new(), Space::new());
    for stream in listener.incoming().flatten() {
        // A buyer who has gone away is no concern of the next one.
        let _ = reply(stream, |line| {
            fill(&mut list, line)?;
            left(book, &list, &mut space)
        });
    }
}

/// Reads the head of a request, and answers its first line.
fn reply(stream: TcpStream, click: impl FnOnce(&str) -> Result<String, Reply>) -> io::Result<()> {
    stream.set_read_timeout(Some(Duration::from_secs(2)))?;
    let mut head = BufReader::new((&stream).take(LONGEST_HEAD)).split(b'\n');
    let line = head.next().unwrap_or_else(|| Ok(Vec::new()))?;
    while head.next().transpose()?.is_some_and(|line| line.len() > 1) {}
    let click = click(String::from_utf8_lossy(&line).trim_end());
    let (status, body) = click.map_or_else(|wrong| wrong, |body| ("200 OK", body));
    let length = body.len();
    write!(
        &stream,
        "HTTP/1.1 {status}\r\nContent-Type: application/json\r\nContent-Length: {length}\r\n\
         Connection: close\r\n\r\n{body}"
    )
}

/// The list that a request line asks for.
fn fill(list: &mut OrderList, line: &str) -> Result<(), Reply> {
    let (method, target) = line.split_once(' ').unwrap_or((line, ""));
    // A line that was too long has lost its end.
    let target = target.strip_suffix(" HTTP/1.1");
    let target = target.ok_or_else(|| wrong(WRONG, "the request can't be read"))?;
    let (path, query) = target.split_once('?').unwrap_or((target, ""));
    match (method, path) {
        ("GET", "/") => {}
        ("GET", _) => return Err(wrong("404 Not Found", "there is only /")),
        _ => return Err(wrong("405 Method Not Allowed", "there is only GET")),
    }
    // A form in a browser writes ':' and ',' so.
    let query = query.replace("%3A", ":").replace("%2C", ",");
    list.clear();
    for word in query.split('&').filter(|word| !word.is_empty()) {
        let added = list.push(order(word)?);
        added.map_err(|full| wrong(REFUSED, Refusal::from(full)))?;
    }
    Ok(())
}

fn order(word: &str) -> Result<Order, Reply> {
    let number = |text: &str| text.parse().map_err(|_| wrong(WRONG, ORDERS));
    let finish = |limit| Order::FinishWithin { limit };
    Ok(match word.split_once('=').unwrap_or((word, "")) {
        ("narrow", argument) => {
            let (column, values) = argument.split_once(':').unwrap_or((argument, ""));
            let column = number(column)?;
            let values: Vec<u8> = values.split(',').map(number).collect::<Result<_, _>>()?;
            let values = Values::of(values).map_err(|refusal| wrong(REFUSED, refusal))?;
            Order::Narrow { column, values }
        }
        ("back", mark) => Order::Back {
            mark: number(mark)?,
        },
        ("mark", "") => Order::Mark,
        ("finish", "") => finish(USUAL_TRIES),
        ("finish", limit) => finish(limit.parse().map_err(|_| wrong(WRONG, ORDERS))?),
        _ => return Err(wrong(WRONG, ORDERS)),
    })
}

/// Runs the list over the book: what is left, as JSON.
fn left(book: Book, list: &OrderList, space: &mut Space) -> Result<String, Reply> {
    let answers = book.run(list, space);
    if let Some((number, refusal)) = answers.refused().next() {
        return Err(wrong(REFUSED, format!("order {number}: {refusal}")));
    }
    let last = answers.last();
    let status = last.status();
    let finish = last.outcome().map(|outcome| format!(r#""{outcome}""#));
    let finish = finish.unwrap_or_else(|| "null".into());
    let left: Vec<Vec<u8>> = last.domains().map(|left| left.iter().collect()).collect();
    Ok(format!(
        r#"{{"status":"{status}","finish":{finish},"left":{left:?}}}"#
    ))
}

fn wrong(status: &'static str, sentence: impl Display) -> Reply {
    (status, format!(r#"{{"error":"{sentence}"}}"#))
}
