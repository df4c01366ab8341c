//! The differential run: our encoder beside the Rust one of docs/src, on generated records.
//! `build` wraps this file and the oracle's sources into one crate; see README.md.

#[cfg(alone)]
mod alone;
#[cfg_attr(alone, allow(dead_code))]
mod answers;
#[path = "../../../library/rust/src/bindings.rs"]
mod bindings;
#[cfg(not(alone))]
mod builders;
#[cfg(not(alone))]
mod compare;
#[cfg(not(alone))]
mod differences;
mod digests;
#[cfg(not(alone))]
mod forms;
mod generate;
mod groups;
mod ill_formed;
#[cfg(not(alone))]
mod left_open;
#[cfg(not(alone))]
mod oracle;
mod ours;
#[cfg_attr(alone, allow(dead_code))]
mod random;
#[cfg_attr(alone, allow(dead_code, unused_macros, unused_imports))]
mod records;
#[cfg(not(alone))]
mod sample;
mod shapes;
#[cfg(standin)]
mod standin;

use digests::Stage;
use generate::Depth;
use records::Record;
use std::process::ExitCode;

const SEED: u64 = 0x3013_CB28_B600_8086;

/// Every record of a run, with the stage that made it.
fn generated(depth: Depth, visit: &mut dyn FnMut(Stage, Record, u16)) {
    let random = if depth == Depth::Full { 12_000_000 } else { 1_000_000 };
    generate::systematic(depth, &mut |record, offset| visit(Stage::Systematic, record, offset));
    generate::branches(depth, &mut |record, offset| visit(Stage::Branches, record, offset));
    generate::left_open(depth, &mut |record, offset| visit(Stage::LeftOpen, record, offset));
    random::records(random, SEED, &mut |record, offset| visit(Stage::Random, record, offset));
    ill_formed::records(&mut |record, offset| visit(Stage::IllFormed, record, offset));
}

#[cfg(not(alone))]
pub fn main() -> ExitCode {
    oracle::prepare();
    let arguments: Vec<String> = std::env::args().skip(1).collect();
    let words: Vec<&str> = arguments.iter().map(String::as_str).collect();
    let fine = match words[..] {
        ["short"] => run(Depth::Short, None),
        ["full"] => run(Depth::Full, None),
        ["block", stage, operation] => run(Depth::Short, Some(format!("{stage} {operation}"))),
        ["digests"] => {
            let mut comparison = compare::Comparison::new();
            generated(Depth::Short, &mut |stage, record, offset| comparison.expect(stage, record, offset));
            print!("{}", comparison.digests());
            comparison.failures() == 0
        }
        ["builders"] => {
            builders::print();
            true
        }
        ["sample"] => sample::write(&mut std::io::stdout().lock()).is_ok(),
        _ => {
            eprintln!("differential: short, full, block STAGE OPERATION, digests, builders or sample");
            false
        }
    };
    if fine { ExitCode::SUCCESS } else { ExitCode::FAILURE }
}

/// A run of all blocks, or of one.
#[cfg(not(alone))]
fn run(depth: Depth, block: Option<String>) -> bool {
    if cfg!(standin) {
        println!("STAND-IN: this run says nothing about our encoder");
    }
    let mut comparison = compare::Comparison::new();
    if let Some(name) = block {
        generated(depth, &mut |stage, record, offset| comparison.visit_of(&name, stage, record, offset));
        return comparison.report_of(&name);
    }
    generated(depth, &mut |stage, record, offset| comparison.visit(stage, record, offset));
    let fine = comparison.report();
    depth == Depth::Full && fine || comparison.report_digests() && fine
}

/// Without the Rust: our answers beside the stored digests.
#[cfg(alone)]
fn main() -> ExitCode {
    if std::env::args().skip(1).collect::<Vec<_>>() != ["short"] {
        eprintln!("differential: without the Rust only short");
        return ExitCode::FAILURE;
    }
    let mut alone = alone::Alone::new();
    generated(Depth::Short, &mut |stage, record, offset| alone.visit(stage, record, offset));
    if alone.report() { ExitCode::SUCCESS } else { ExitCode::FAILURE }
}
