//! Links libfsq.a, which tools/staticlib writes to target/staticlib, or the file that FSQ_LIBRARY names. Where there is none, `cargo check` and
//! `cargo doc` work all the same; what has to link says that the native static library `fsq` is missing.

use std::env;
use std::fs;
use std::path::{Path, PathBuf};

fn main() {
    println!("cargo:rerun-if-env-changed=FSQ_LIBRARY");
    let built = Path::new(env!("CARGO_MANIFEST_DIR")).join("../../target/staticlib");
    let libraries = match env::var_os("FSQ_LIBRARY") {
        Some(path) => vec![PathBuf::from(path)],
        // tools/staticlib writes it as libforeign.a, and libfsq.a is a second name of that file.
        None => vec![built.join("libfsq.a"), built.join("libforeign.a")],
    };
    for library in &libraries {
        println!("cargo:rerun-if-changed={}", library.display());
    }
    let library = libraries.iter().find(|library| library.exists()).unwrap_or(&libraries[0]);
    // A copy under its own name: the file may have any.
    let out = PathBuf::from(env::var_os("OUT_DIR").expect("cargo sets OUT_DIR"));
    let copy = out.join("libfsq.a");
    if let Err(why) = fs::copy(library, &copy) {
        // An older copy is not linked in its place.
        let _ = fs::remove_file(&copy);
        println!(
            "cargo:warning={}: {why}; nothing links without it: tools/staticlib writes it, or FSQ_LIBRARY names it",
            library.display()
        );
    }
    println!("cargo:rustc-link-search=native={}", out.display());
    println!("cargo:rustc-link-lib=static=fsq");
}
