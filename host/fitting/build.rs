//! Finds the proved library, `libservice.a`, and links it.

use std::env;
use std::path::Path;

fn main() {
    println!("cargo::rerun-if-changed=build.rs");
    println!("cargo::rerun-if-env-changed=FITTING_LIB_DIR");
    // A relative folder counts from this crate's own; an absolute one stands as it is.
    let here = env::var_os("CARGO_MANIFEST_DIR").unwrap_or_default();
    let named = env::var_os("FITTING_LIB_DIR").unwrap_or_else(|| "../../target/staticlib".into());
    let folder = Path::new(&here).join(named);
    let library = folder.join("libservice.a");
    println!("cargo::rerun-if-changed={}", library.display());
    if library.is_file() {
        println!("cargo::rustc-link-search=native={}", folder.display());
        println!("cargo::rustc-link-lib=static=service");
        // For the tests that look into it, or link it to a program in C.
        println!("cargo::rustc-env=FITTING_LIBRARY={}", library.display());
    } else {
        println!(
            "cargo::error=the proved library is not at {}: run `tools/staticlib` at the \
             repository root, or name its folder in FITTING_LIB_DIR",
            library.display()
        );
    }
}
