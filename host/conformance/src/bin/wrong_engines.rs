//! Builds every wrong engine, has it answer the vectors of the kit, and writes which of them notice it.
//!
//! ```text
//! wrong_engines            writes vectors/faults.tsv
//! wrong_engines --check    says whether it would write anything else
//! ```

use conformance::wrong::{WrongEngine, FAULTS};
use conformance::{kit, Folder};
use std::path::PathBuf;
use std::process::{Command, ExitCode};
use std::{env, fs, thread};

/// What stands in its first line.
const FIELDS: &str = "fault\tdiffers on\tthe first of them\n";

/// So many vectors are named of those that an engine differs on.
const NAMED: usize = 8;

const FLAGS: [&str; 4] = [
    "--edition=2021",
    "--cap-lints=allow",
    "-Copt-level=1",
    "-Coverflow-checks",
];

fn main() -> ExitCode {
    let arguments: Vec<String> = env::args().skip(1).collect();
    let check = arguments == ["--check"];
    assert!(
        check || arguments.is_empty(),
        "usage: wrong_engines [--check]"
    );
    let faults = faults();
    let file = kit::folder().join(FAULTS);
    if !check {
        fs::write(&file, faults).expect("the file of faults");
    } else if fs::read_to_string(&file).ok() != Some(faults) {
        eprintln!("{FAULTS} differs: write it anew, without --check");
        return ExitCode::FAILURE;
    }
    ExitCode::SUCCESS
}

/// The file of faults. What isn't noticed as it must be, panics.
fn faults() -> String {
    let folder = Folder::new("wrong-engines");
    let differs = noticed_by(&folder, &WrongEngine::default());
    assert!(differs.is_empty(), "the reference differs on {differs:?}");
    let engines = WrongEngine::all();
    let mut faults = FIELDS.to_owned();
    for (engine, names) in engines.iter().zip(all_noticed_by(&folder, &engines)) {
        println!("{}: {}", engine.name, names.join(" "));
        assert!(!names.is_empty(), "nothing notices {}", engine.name);
        for name in &engine.noticed {
            assert!(names.contains(name), "{name} must notice {}", engine.name);
        }
        let first = names[..names.len().min(NAMED)].join(" ");
        faults += &format!("{}\t{}\t{first}\n", engine.words, names.len());
    }
    println!("{} wrong engines, each noticed", engines.len());
    faults
}

/// The vectors that notice each engine, as many engines at a time as the machine has cores.
fn all_noticed_by(folder: &Folder, engines: &[WrongEngine]) -> Vec<Vec<String>> {
    let threads = thread::available_parallelism().map_or(1, usize::from);
    let all = |part: &[WrongEngine]| -> Vec<_> {
        part.iter()
            .map(|engine| noticed_by(folder, engine))
            .collect()
    };
    thread::scope(|scope| {
        let parts = engines.chunks(engines.len().div_ceil(threads));
        let parts: Vec<_> = parts.map(|part| scope.spawn(move || all(part))).collect();
        let parts = parts.into_iter();
        parts
            .flat_map(|part| part.join().expect("no engine failed to build"))
            .collect()
    })
}

/// The names of the vectors on which the reference differs with this edit.
fn noticed_by(folder: &Folder, engine: &WrongEngine) -> Vec<String> {
    let ran = Command::new(build(folder, engine))
        .arg(kit::folder())
        .output()
        .expect("the engine");
    assert!(ran.status.success(), "{} doesn't end well", engine.name);
    let names = String::from_utf8(ran.stdout).expect("names");
    names.lines().map(String::from).collect()
}

/// A program of the reference with this edit, built in a folder of its own.
fn build(folder: &Folder, engine: &WrongEngine) -> PathBuf {
    let scratch = folder.path().join(&engine.name);
    fs::create_dir_all(scratch.join("src")).expect("a scratch folder");
    for (file, text) in engine.sources() {
        fs::write(scratch.join(file), text).expect("a file of the engine");
    }
    let program = scratch.join("engine");
    let rustc = env::var_os("RUSTC").unwrap_or_else(|| "rustc".into());
    let built = Command::new(rustc)
        .args(FLAGS)
        .arg(scratch.join("src/lib.rs"))
        .arg("-o")
        .arg(&program)
        .status();
    let built = built.expect("rustc").success();
    assert!(built, "{} doesn't build", engine.name);
    program
}
