//! The examples, run as the documents say. Those in C are compiled first, with the header; the one that
//! serves clicks is started and asked.

use conformance::{changed, harbour};
use std::io::{BufRead, BufReader, Read, Write};
use std::net::{Shutdown, TcpStream};
use std::path::{Path, PathBuf};
use std::process::{Child, Command, Stdio};
use std::{env, fs, thread};

/// The example of this name, which cargo builds beside the tests.
fn example(name: &str) -> PathBuf {
    let test = env::current_exe().expect("a test has a file");
    let built = test.ancestors().nth(2).expect("cargo's folder");
    built.join("examples").join(name)
}

/// A program with these words, in the folder of books.
fn command(program: &Path, words: &str) -> Command {
    let mut command = Command::new(program);
    command.current_dir(concat!(env!("CARGO_MANIFEST_DIR"), "/../../books"));
    command.args(words.split_whitespace());
    command
}

/// What the program says to these words, and its exit status.
fn says(program: &Path, words: &str, said: &str, status: i32) {
    tells(&mut command(program, words), said, status);
}

fn tells(command: &mut Command, said: &str, status: i32) {
    let output = command.output().expect("it runs");
    let told = String::from_utf8_lossy(&output.stdout);
    assert_eq!(told, said, "{command:?}");
    assert_eq!(output.status.code(), Some(status), "{command:?}");
}

const NOWHERE: &str = "nowhere.bin: No such file or directory (os error 2)\n";
const LENGTH: &str = "refusal 1: the length isn't a multiple of 512 from 512 to 16,896\n";

#[test]
fn checks() {
    let check = example("check");
    let accepted = "harbour.bin: 50, accepted: C 3, S 2\n";
    let both = format!("{accepted}../README.md: 65536, {LENGTH}");
    says(&check, "harbour.bin", accepted, 0);
    says(&check, "harbour.bin ../README.md", &both, 1);
    says(&check, "nowhere.bin", NOWHERE, 1);
    says(&check, "", "", 2);
}

/// The harbour book with a byte changed: in a sheet's entry, in a value, after the values, in an unused row. Then with
/// sheet 0 forbidden, and a row that repeats, or a 255.
#[test]
fn checks_of_damaged_books() {
    let folder = env!("CARGO_TARGET_TMPDIR");
    let changes = [
        &[(25, 1)][..],
        &[(525, 7)],
        &[(1026, 1)],
        &[(1036, 1)],
        &[(24, 130), (521, 0)],
        &[(24, 130), (525, 255)],
    ];
    for (number, changes) in changes.into_iter().enumerate() {
        let file = Path::new(folder).join(format!("{number}.bin"));
        fs::write(file, changed(&harbour(), changes)).unwrap();
    }
    let lines = "\
        0.bin: 196634, refusal 3: sheet 0's second column number, 1, is not above 1\n\
        1.bin: 327811, refusal 5: sheet 0, row 3, column 1: value 7 is not below its V, 2\n\
        2.bin: 393472, refusal 6: sheet 1, row 0: a byte after its values is not zero\n\
        3.bin: 393475, refusal 6: sheet 1, row 3, which is unused: a byte is not zero\n\
        4.bin: 458882, refusal 7: sheet 0, row 2: it is not above row 1, and rows of a forbidden sheet rise\n\
        5.bin: 327811, refusal 5: sheet 0, row 3, column 1: a forbidden sheet may not have 255\n";
    let mut check = command(&example("check"), "0.bin 1.bin 2.bin 3.bin 4.bin 5.bin");
    tells(check.current_dir(folder), lines, 1);
}

#[test]
fn runs() {
    let run = example("run");
    let orders = "harbour.bin mark narrow 2 1 finish back 1 back 1 narrow 0 4 narrow 1 1 finish";
    let lines = "0: open, depth 0: 111 11 11\n\
                 1: open, depth 1: 111 11 11\n\
                 2: open, depth 1: 11 1 1\n\
                 3: found: 1 1 1\n\
                 4: open, depth 0: 111 11 11\n\
                 5: refusal 24: there is no such mark: 111 11 11\n\
                 6: decided, depth 0: 100 10 10\n\
                 7: dead, depth 0: 0 0 0\n\
                 8: no full set: 0 0 0\n";
    says(&run, orders, lines, 0);
    let limits = "harbour.bin finish-within 1 finish-within 2 finish-within 65535";
    let lines = "0: open, depth 0: 111 11 11\n\
                 1: not decided within 1 tries: 0 0 0\n\
                 2: found: 1 1 1\n\
                 3: found: 1 1 1\n";
    says(&run, limits, lines, 0);
    says(&run, "../README.md", LENGTH, 1);
    says(&run, "nowhere.bin mark", NOWHERE, 1);
    for wrong in [
        "",
        "harbour.bin narrow 2",
        "harbour.bin go",
        "harbour.bin finish-within",
        "harbour.bin finish-within 0",
        "harbour.bin finish-within 65536",
    ] {
        says(&run, wrong, "", 2);
    }
}

const C: [&str; 2] = ["cc", "-std=c99"];
const CPP: [&str; 4] = ["c++", "-std=c++11", "-x", "c++"];

/// Compiles these in the folder of this crate, with every warning an error.
fn compile(compiler: &[&str], words: &[&str]) {
    let mut command = Command::new(compiler[0]);
    command.current_dir(env!("CARGO_MANIFEST_DIR"));
    command.args(&compiler[1..]);
    command.args(["-Wall", "-Wextra", "-Werror", "-pedantic", "-Iinclude"]);
    let output = command.args(words).output().expect("the compiler runs");
    let errors = String::from_utf8_lossy(&output.stderr);
    assert!(output.status.success(), "{command:?}\n{errors}");
}

/// The example of this name, compiled in this language and linked with the library.
fn compiled(name: &str, compiler: &[&str]) -> PathBuf {
    let folder = Path::new(env!("CARGO_TARGET_TMPDIR"));
    let program = folder.join(format!("{name}-{}", compiler[0]));
    let to = program.to_str().expect("a folder with a name in letters");
    let from = format!("examples/{name}.c");
    let library = env!("FITTING_LIBRARY");
    compile(compiler, &[&from, "-x", "none", library, "-o", to]);
    program
}

/// The example that prints what is left.
fn left(compiler: &[&str]) {
    let left = &compiled("left", compiler);
    let opening = "column 0: 0 1 2\ncolumn 1: 0 1\ncolumn 2: 0 1\n";
    let board = "column 0: 0 1\ncolumn 1: 0\ncolumn 2: 0\n";
    let dead = "column 0:\ncolumn 1:\ncolumn 2:\n";
    let refused = format!("order 1: refusal 22\norder 2: refusal 21\n{opening}");
    says(left, "harbour.bin", opening, 0);
    says(left, "harbour.bin 2 0", board, 0);
    says(left, "harbour.bin 2 0 0 2", dead, 0);
    says(left, "harbour.bin 2 31 9 0", &refused, 1);
    says(left, "../README.md", "refusal 1, place 0\n", 1);
    for wrong in ["", "nowhere.bin", "harbour.bin 2", "harbour.bin 2 32"] {
        says(left, wrong, "", 2);
    }
}

/// The example that prints the first full set.
fn first(compiler: &[&str]) {
    let first = &compiled("first", compiler);
    let found = "column 0: 0\ncolumn 1: 0\ncolumn 2: 0\n";
    says(first, "harbour.bin 1", "not decided yet, tries: 1\n", 3);
    says(first, "harbour.bin 2", found, 0);
    says(first, "harbour.bin 65535", found, 0);
    says(first, "harbour.bin 65536", "refusal 27\n", 1);
    says(first, "../README.md 1", "refusal 1, place 0\n", 1);
    for wrong in ["", "nowhere.bin 1", "harbour.bin", "harbour.bin 0"] {
        says(first, wrong, "", 2);
    }
}

/// The header alone too, as the first thing that a program includes.
#[test]
fn examples_in_c() {
    left(&C);
    first(&C);
    compile(&C, &["-fsyntax-only", "-x", "c", "include/fitting.h"]);
}

/// The same programs as C++: they link, so the header gives the names of C.
#[test]
fn examples_in_cpp() {
    if Command::new(CPP[0]).arg("--version").output().is_ok() {
        left(&CPP);
        first(&CPP);
    } else {
        conformance::show("no c++ here: the header is not tried");
    }
}

const OPENING: &str = r#"{"status":"open","finish":null,"left":[[0, 1, 2], [0, 1], [0, 1]]}"#;

struct Host {
    child: Child,
    address: String,
}

impl Host {
    fn start() -> Self {
        let mut click = command(&example("click"), "harbour.bin 127.0.0.1:0");
        let mut child = click.stdout(Stdio::piped()).spawn().unwrap();
        let mut first = String::new();
        let output = child.stdout.as_mut().expect("a pipe");
        BufReader::new(output).read_line(&mut first).unwrap();
        let address = first.trim_end().strip_prefix("http://");
        let address = address.and_then(|rest| rest.strip_suffix('/'));
        let address = address.expect("the address").to_string();
        Self { child, address }
    }

    /// The status and the body of the reply to these bytes.
    fn asked(&self, request: &[u8]) -> (String, String) {
        let mut stream = TcpStream::connect(&self.address).unwrap();
        stream.write_all(request).unwrap();
        stream.shutdown(Shutdown::Write).unwrap();
        let mut reply = String::new();
        stream.read_to_string(&mut reply).unwrap();
        let (head, body) = reply.split_once("\r\n\r\n").expect("a head and a body");
        let length = format!("Content-Length: {}\r\n", body.len());
        assert!(head.contains(&length), "{head}");
        let status = head.lines().next().expect("a line");
        let status = status.strip_prefix("HTTP/1.1 ").expect("a status");
        (status.to_string(), body.to_string())
    }

    fn answers(&self, target: &str, status: &str, body: &str) {
        let request = format!("GET {target} HTTP/1.1\r\nHost: here\r\n\r\n");
        let answer = self.asked(request.as_bytes());
        assert_eq!(answer, (status.into(), body.into()), "{target}");
    }

    fn fails(&self, target: &str, status: &str, sentence: &str) {
        self.answers(target, status, &format!(r#"{{"error":"{sentence}"}}"#));
    }
}

impl Drop for Host {
    fn drop(&mut self) {
        let _ = self.child.kill();
        let _ = self.child.wait();
    }
}

#[test]
fn clicks() {
    let host = Host::start();
    let board = r#"{"status":"open","finish":null,"left":[[0, 1], [0], [0]]}"#;
    let wide = r#"{"status":"decided","finish":null,"left":[[2], [1], [1]]}"#;
    let found = r#"{"status":"open","finish":"found","left":[[0], [0], [0]]}"#;
    let none = r#"{"status":"dead","finish":"none","left":[[], [], []]}"#;
    let stopped = r#"{"status":"open","finish":"stopped","left":[[], [], []]}"#;
    let longest = format!("/?{}", "narrow=1:0,1&".repeat(256));
    for (target, body) in [
        ("/", OPENING),
        ("/?", OPENING),
        ("/?narrow=2:0", board),
        ("/?mark&narrow=2:0", board),
        ("/?narrow=0%3A0%2C1&narrow=2%3A0", board),
        ("/?mark&narrow=2:0&back=1", OPENING),
        ("/?narrow=0:2", wide),
        ("/?narrow=2:0,1&finish", found),
        ("/?narrow=2:0,1&finish=1", stopped),
        ("/?narrow=2:0,1&finish=2", found),
        ("/?narrow=2:0,1&finish=65535", found),
        ("/?narrow=2:0&narrow=0:2&finish", none),
        (&longest, OPENING),
    ] {
        host.answers(target, "200 OK", body);
    }
}

#[test]
fn clicks_that_are_refused() {
    let host = Host::start();
    let no_value = "refusal 22: the mask has a value that the column doesn't have";
    let no_column = "order 1: refusal 21: the book has no such column";
    let no_mark = "order 1: refusal 24: there is no such mark";
    let many = "refusal 10: the orders aren't a multiple of 8 bytes or exceed 2,048 bytes";
    for (target, sentence) in [
        ("/?mark&narrow=2:2", &*format!("order 2: {no_value}")),
        ("/?narrow=2:32", no_value),
        ("/?narrow=3:0", no_column),
        ("/?back=1", no_mark),
        (&format!("/?{}", "mark&".repeat(257)), many),
    ] {
        host.fails(target, "422 Unprocessable Content", sentence);
    }
}

#[test]
fn clicks_that_cannot_be_read() {
    let host = Host::start();
    let orders = "an order is narrow=COLUMN:VALUE,VALUE or mark or back=MARK or finish or \
                  finish=TRIES, 1 to 65535";
    let wrong = "go narrow narrow= narrow=2 narrow=2: narrow=:1 narrow=2:0, narrow=256:0 \
                 narrow=2:256 narrow=2:-1 mark=1 back back=x finish=x finish=0 finish=65536 \
                 narrow=2:0&%FF =";
    for query in wrong.split_whitespace() {
        host.fails(&format!("/?{query}"), "400 Bad Request", orders);
    }
    host.fails("/favicon.ico", "404 Not Found", "there is only /");
}

/// Whatever comes in, the next click is answered.
#[test]
fn requests_that_are_none() {
    let host = Host::start();
    let (status, _) = host.asked(b"POST / HTTP/1.1\r\n\r\n");
    assert_eq!(status, "405 Method Not Allowed");
    for request in [
        &b""[..],
        b"\r\n\r\n",
        b"GET",
        b"GET / HTTP/0.9\r\n\r\n",
        b"\xFF\xFE\x00\n",
        b"GET  HTTP/1.1",
    ] {
        let (status, _) = host.asked(request);
        assert!(status.starts_with('4'), "{status}");
    }
    // The host reads no more of a long line than it must, so it may break before the reply is read.
    let long = format!("GET /?{} HTTP/1.1\r\n\r\n", "mark&".repeat(14_000));
    let mut stream = TcpStream::connect(&host.address).unwrap();
    let _ = stream.write_all(long.as_bytes());
    let mut reply = Vec::new();
    let _ = stream.read_to_end(&mut reply);
    assert!(reply.is_empty() || reply.starts_with(b"HTTP/1.1 400 "));
    host.answers("/", "200 OK", OPENING);
}

/// One book for all threads, a space for each.
#[test]
fn many_buyers_at_once() {
    let host = &Host::start();
    let left = ["[[0, 1], [0], [0, 1]]", "[[1, 2], [1], [1]]"];
    thread::scope(|scope| {
        for buyer in 0..8 {
            scope.spawn(move || {
                let (target, left) = (format!("/?narrow=1:{}", buyer % 2), left[buyer % 2]);
                let body = format!(r#"{{"status":"open","finish":null,"left":{left}}}"#);
                (0..20).for_each(|_| host.answers(&target, "200 OK", &body));
            });
        }
    });
}

/// A host with no right book does not start, and says why.
#[test]
fn no_book_no_host() {
    for (words, said) in [
        ("../README.md 127.0.0.1:0", "refusal 1: the length"),
        ("nowhere.bin 127.0.0.1:0", "NotFound"),
        ("harbour.bin nowhere", "Error"),
        ("harbour.bin", "name a book file and an address"),
    ] {
        let output = command(&example("click"), words).output().unwrap();
        assert_eq!(output.status.code(), Some(1), "{words}");
        let errors = String::from_utf8_lossy(&output.stderr);
        assert!(errors.contains(said), "{errors}");
    }
}
