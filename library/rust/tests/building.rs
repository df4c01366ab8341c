//! The crate without its default features, and where the library is not built.

use std::fs;
use std::path::{Path, PathBuf};
use std::process::Command;

/// The folder of a run's own.
fn folder(name: &str) -> PathBuf {
    Path::new(env!("CARGO_TARGET_TMPDIR")).join(name)
}

/// Whether cargo succeeds in a crate's folder, and what it says. `with_library` is whether the variable that names the library is kept.
fn cargo(arguments: &str, directory: &Path, target: &Path, with_library: bool) -> (bool, String) {
    let mut command = Command::new(env!("CARGO"));
    command.args(arguments.split(' ')).args(["--offline", "--locked", "-j1", "--target-dir"]).arg(target).current_dir(directory);
    if !with_library {
        command.env_remove("FSQ_LIBRARY");
    }
    let output = command.output().unwrap();
    (output.status.success(), String::from_utf8_lossy(&output.stderr).into_owned())
}

#[test]
fn without_std() {
    let here = Path::new(env!("CARGO_MANIFEST_DIR"));
    for arguments in ["check --no-default-features", "check --no-default-features --features alloc"] {
        let (success, said) = cargo(arguments, here, &folder("without_std"), true);
        assert!(success, "{arguments}: {said}");
        assert!(!said.contains("warning: unused"), "{arguments}: {said}");
    }
}

#[test]
fn without_the_library() {
    // A copy of the crate, beside which no library stands.
    let (here, copy) = (Path::new(env!("CARGO_MANIFEST_DIR")), folder("without_library").join("library/rust"));
    for part in ["", "src", "tests", "examples", "benches"] {
        fs::create_dir_all(copy.join(part)).unwrap();
        for entry in fs::read_dir(here.join(part)).unwrap().map(Result::unwrap) {
            if entry.file_type().unwrap().is_file() {
                fs::copy(entry.path(), copy.join(part).join(entry.file_name())).unwrap();
            }
        }
    }
    let target = folder("without_library").join("built");
    for arguments in ["check", "check --no-default-features", "doc"] {
        let (success, said) = cargo(arguments, &copy, &target, false);
        assert!(success, "{arguments}: {said}");
        assert!(said.contains("nothing links without it: tools/staticlib writes it, or FSQ_LIBRARY names it"), "{arguments}: {said}");
    }
    let (success, said) = cargo("build --example one", &copy, &target, false);
    assert!(!success && said.contains("could not find native static library `fsq`"), "{said}");
}
