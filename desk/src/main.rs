//! `fsq VERB ..`: see `fsq --help`.

use std::process::ExitCode;

fn main() -> ExitCode {
    ExitCode::from(fsq_desk::call::main(std::env::args_os().skip(1)))
}
