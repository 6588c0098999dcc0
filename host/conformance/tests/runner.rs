//! The kit's runner `try`, with the program and with wrong ones.

#![cfg(unix)]

use conformance::{kit, program};
use std::path::Path;
use std::process::{Command, Output};

/// What the runner says of a command, started in this folder.
fn tried(folder: &Path, command: &[&str]) -> Output {
    Command::new(kit::folder().join("try"))
        .args(command)
        .current_dir(folder)
        .output()
        .expect("the runner starts")
}

fn lines(output: &Output) -> Vec<&str> {
    let text = std::str::from_utf8(&output.stdout).expect("text");
    text.lines().collect()
}

#[test]
fn the_program_agrees_with_each() {
    let program = program();
    let output = tried(program.parent().expect("its folder"), &["./fit"]);
    let agreed = format!("{} agreed, 0 differ", kit::vectors().len());
    assert_eq!(lines(&output), [&*agreed]);
    assert_eq!(output.status.code(), Some(0));
    assert!(output.stderr.is_empty());
}

#[test]
fn a_program_that_prints_no_lines_differs_on_each() {
    let count = kit::vectors().len();
    let output = tried(&kit::folder(), &["echo"]);
    assert_eq!(lines(&output).len(), count + 1);
    assert_eq!(lines(&output)[count], format!("0 agreed, {count} differ"));
    assert_eq!(output.status.code(), Some(1));
}

/// A program whose only fault is that it says `accepted 4` for 5: a line for each such vector.
#[test]
fn each_difference_has_its_line() {
    let script = "\"$1\" | sed 's/^accepted 5$/accepted 4/'";
    let program = program().canonicalize().expect("the program");
    let program = program.to_str().expect("a plain path");
    let output = tried(&kit::folder(), &["sh", "-c", script, "sh", program]);
    let vectors = kit::vectors();
    let wrong: Vec<_> = vectors
        .iter()
        .filter(|it| reference::printed(&it.book, &it.orders).ends_with("\naccepted 5\n"))
        .collect();
    let lines = lines(&output);
    let (last, differences) = lines.split_last().expect("a last line");
    assert_eq!(differences.len(), wrong.len());
    for (line, vector) in differences.iter().zip(&wrong) {
        let start = format!("{} differs: ", vector.name);
        assert!(line.starts_with(&start), "{line}");
    }
    let agreed = vectors.len() - wrong.len();
    assert_eq!(*last, format!("{agreed} agreed, {} differ", wrong.len()));
    assert_eq!(output.status.code(), Some(1));
}

#[test]
fn nothing_to_try() {
    for command in [
        &[][..],
        &["./no-such-program"],
        &["no-such-program-anywhere"],
    ] {
        let output = tried(&kit::folder(), command);
        assert!(output.stdout.is_empty());
        assert!(output.stderr.starts_with(b"try: "));
        assert_eq!(output.status.code(), Some(2));
    }
}
