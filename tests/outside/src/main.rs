//! Our encoder, reader and lister held to programs that others wrote: NASM, ndisasm and Zydis. See README.md.

#[allow(dead_code, unused_imports)]
#[path = "../../differential/src/answers.rs"]
mod answers;
#[allow(dead_code, unused_imports)]
#[path = "../../differential/src/forms.rs"]
mod forms;
#[allow(dead_code, unused_imports)]
#[path = "../../differential/src/generate.rs"]
mod generate;
#[allow(dead_code, unused_imports)]
#[path = "../../differential/src/groups.rs"]
mod groups;
#[allow(dead_code, unused_imports)]
#[path = "../../differential/src/ours.rs"]
mod ours;
#[allow(dead_code, unused_imports)]
#[path = "../../differential/src/random.rs"]
mod random;
#[allow(dead_code, unused_imports)]
#[path = "../../differential/src/records.rs"]
mod records;
#[allow(dead_code, unused_imports)]
#[path = "../../differential/src/shapes.rs"]
mod shapes;

#[path = "../../../library/rust/src/bindings.rs"]
mod bindings;

mod accepted;
mod assembler;
mod assembly;
mod classes;
mod library;
mod lists;
mod meaning;
mod nasm;
mod ndisasm;
mod reads;
mod strings;
mod zydis;

use std::process::ExitCode;

#[derive(Clone, Copy, PartialEq, Eq)]
pub enum Depth {
    Short,
    Full,
}

pub fn main() -> ExitCode {
    let arguments: Vec<String> = std::env::args().skip(1).collect();
    let depth = if arguments.get(1).is_some_and(|a| a == "full") { Depth::Full } else { Depth::Short };
    let fine = match arguments.first().map(String::as_str) {
        Some("assembler") => assembler::run(depth),
        Some("disassemblers") => reads::run(depth),
        Some("lists") => lists::run(depth),
        _ => {
            eprintln!("outside: assembler, disassemblers or lists, then short or full");
            false
        }
    };
    if fine { ExitCode::SUCCESS } else { ExitCode::FAILURE }
}

/// Failures printed in full; the rest are counted.
const PRINTED: u64 = 20;

#[derive(Default)]
pub struct Failures(u64);

impl Failures {
    pub fn add(&mut self, text: &str) {
        self.0 += 1;
        if self.0 <= PRINTED {
            println!("UNEXPLAINED {text}");
        }
    }

    pub fn count(&self) -> u64 {
        self.0
    }
}
