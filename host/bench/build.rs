//! Builds the calls of Gecode where it is installed. Where it isn't, the benchmark goes without.

use std::env;
use std::path::Path;
use std::process::{Command, Stdio};

const SOURCE: &str = "src/gecode.cpp";

fn main() {
    println!("cargo::rerun-if-changed=build.rs");
    println!("cargo::rerun-if-changed={SOURCE}");
    println!("cargo::rustc-check-cfg=cfg(gecode)");
    if !has_header() {
        return;
    }
    let out = env::var("OUT_DIR").unwrap_or_default();
    if !build(Path::new(&out)) {
        println!("cargo::warning=Gecode is there, but {SOURCE} doesn't build with it");
        return;
    }
    println!("cargo::rustc-cfg=gecode");
    println!("cargo::rustc-link-search=native={out}");
    println!("cargo::rustc-link-lib=static=bench_gecode");
    for library in ["search", "int", "kernel", "support"] {
        println!("cargo::rustc-link-lib=dylib=gecode{library}");
    }
    println!("cargo::rustc-link-lib=dylib=stdc++");
}

/// Whether there is a g++, and it finds Gecode's header.
fn has_header() -> bool {
    let mut command = Command::new("g++");
    command.args(["-E", "-x", "c++", "-include", "gecode/int.hh", "/dev/null"]);
    succeeds(command.stdout(Stdio::null()).stderr(Stdio::null()))
}

fn build(out: &Path) -> bool {
    let object = out.join("gecode.o");
    let library = out.join("libbench_gecode.a");
    let mut compile = Command::new("g++");
    compile.args(["-std=c++17", "-O3", "-DNDEBUG", "-fPIC", "-c", SOURCE, "-o"]);
    let mut archive = Command::new("ar");
    archive.arg("crs").arg(library).arg(&object);
    succeeds(compile.arg(&object)) && succeeds(&mut archive)
}

fn succeeds(command: &mut Command) -> bool {
    command.status().is_ok_and(|status| status.success())
}
