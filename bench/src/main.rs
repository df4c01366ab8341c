//! What a call costs: our encoder, also by the shortest string, reader, lister, loader and the text of a form on the records of records.fsq, beside the Rust of
//! docs/src and Zydis; the value of a sum, cues, runs on the desk, and a show to convert.
//! `build` wraps this file and the Rust's sources into one crate; see README.md.

#[allow(dead_code, unused_imports)]
#[path = "../../tests/differential/src/answers.rs"]
mod answers;
#[allow(dead_code, unused_imports)]
#[path = "../../tests/differential/src/records.rs"]
mod records;
#[path = "../../library/rust/src/bindings.rs"]
mod bindings;

mod clock;
mod convert;
mod cues;
mod groups;
mod rattle;
mod runs;
mod rust;
mod show;
mod sides;
mod sums;
#[cfg(zydis)]
mod zydis;

use clock::{clock, Figure, Turn};
use show::Show;
use sides::OnShow;
use std::process::ExitCode;

/// Rounds that are timed, and rounds before them that are not. A round is all records once.
const ROUNDS: usize = 10_000;
const WARMING: usize = 100;
const SHORT: usize = 3;
/// The terms of the longer texts.
const TERMS: [usize; 4] = [1000, 2000, 4000, 8000];

pub fn main() -> ExitCode {
    let arguments: Vec<String> = std::env::args().skip(1).collect();
    let words: Vec<&str> = arguments.iter().map(String::as_str).collect();
    let done = match words[..] {
        ["full", file] => Show::read(file).and_then(|show| measure(&show, ROUNDS, WARMING, true)),
        ["short", file] => Show::read(file).and_then(|show| measure(&show, SHORT, 0, false)),
        ["listing", file] => Show::read(file).map(|show| show.print_listing()),
        ["texts"] => Ok(sums::Texts::delays().print()),
        ["cues"] => cues::Sheet::new().print(),
        ["image"] => runs::Desk::new(true).print(),
        ["steps"] => Ok(println!("{}", runs::Desk::new(true).count())),
        ["branches"] => convert::Branches::new().print(),
        ["work", _, "sum-rattle", rounds] => work(sums::Texts::delays(), rounds),
        ["work", _, "cue-rattle", rounds] => work(cues::Sheet::new(), rounds),
        ["work", _, "run-rattle", rounds] => work(runs::Desk::new(true), rounds),
        ["work", _, "run-refused", rounds] => work(runs::Desk::new(false), rounds),
        ["work", _, "convert-rattle", rounds] => work(convert::Branches::new(), rounds),
        ["work", _, "check-rattle", rounds] => work(convert::Targets::new(), rounds),
        ["work", file, side, rounds] => Show::read(file).and_then(|show| work(OnShow::new(&show, sides::named(side).ok_or(format!("no side {side}"))?), rounds)),
        _ => Err("full FILE, short FILE, listing FILE, texts, cues, image, steps, branches, or work FILE SIDE ROUNDS".to_string()),
    };
    match done {
        Ok(()) => ExitCode::SUCCESS,
        Err(why) => {
            eprintln!("bench: {why}");
            ExitCode::FAILURE
        }
    }
}

/// One side alone, for callgrind.
fn work(mut side: impl Turn, rounds: &str) -> Result<(), String> {
    for _ in 0..rounds.parse::<usize>().map_err(|e| e.to_string())? {
        side.round();
    }
    Ok(())
}

/// String operations with a repeat, which the Rust does not have.
const REPEATS: [&str; 4] = ["encode-repeat", "read-repeat", "list-repeat", "load-repeat"];

/// Compares the answers of all sides, then times them. A short run says nothing about time.
fn measure(show: &Show, rounds: usize, warming: usize, timed: bool) -> Result<(), String> {
    println!("records: {}", groups::counts(show));
    println!("bytes: {}", sides::agree(show)?);
    println!("sums: {}", sums::agree()?);
    println!("cues: {}", cues::agree()?);
    println!("runs: {}", runs::agree()?);
    println!("convert: {}", convert::agree()?);

    fn on<'a>(show: &'a Show, names: &[&str]) -> Vec<OnShow<'a>> {
        names.iter().filter_map(|name| Some(OnShow::new(show, sides::named(name)?))).collect()
    }
    let of = |names: &[&str]| on(show, names);
    let one_by_one = clock(of(&["encode-rattle", "encode-rust", "encode-rust-alone"]), rounds, warming)?;
    let plain = clock(of(&["encode-rust", "encode-plain"]), rounds, warming)?;
    let reads = clock(of(&["read-rattle", "read-zydis"]), rounds, warming)?;
    let lists = clock(of(&["list-rattle"]), rounds / 10 + 1, warming / 10)?;
    let shortest = clock(of(&["shortest-rattle"]), rounds / 10 + 1, warming / 10)?;
    let forms = clock(of(&["form-rattle"]), rounds, warming)?;
    let loads = clock(of(&["load-rattle", "load-rust"]), rounds, warming)?;
    let repeats = clock(of(&REPEATS), rounds / 10 + 1, warming / 10)?;
    let sums = clock(vec![sums::Texts::delays()], rounds, warming)?;
    let cues = clock(vec![cues::Sheet::new()], rounds, warming)?;
    let runs = clock(vec![runs::Desk::new(true), runs::Desk::new(false)], rounds / 100 + 1, warming / 10)?;
    let converts = clock(vec![convert::Branches::new()], rounds / 10 + 1, warming / 10)?;
    let checks = clock(vec![convert::Targets::new()], rounds / 10 + 1, warming / 10)?;
    let grown = [1, 2, 4, 8].into_iter().map(|times| show.times(times)).collect::<Result<Vec<Show>, String>>()?;
    let grow = |names: &[&str]| clock(grown.iter().flat_map(|longer| on(longer, names)).collect(), rounds / 10 + 1, warming / 10);
    let encoded = grow(&["encode-rattle", "encode-rust"])?;
    let loaded = grow(&["load-rattle", "load-rust"])?;
    let evaluated = clock(TERMS.map(sums::Texts::of_terms).into(), rounds / 10 + 1, warming / 10)?;
    let longest = clock(vec![runs::Desk::longest()], rounds / 2000 + 1, 0)?;
    if !timed {
        println!("short: every side ran {rounds} rounds with equal answers; no claim about time");
        return Ok(());
    }

    println!("{rounds} rounds, in brackets the 10th to the 90th percentile");
    both("encode", "/record", &one_by_one[0], "rust", &one_by_one[1]);
    println!("        rust encode alone {}/record, ratio {:.2}", one_by_one[2], one_by_one[0].over(&one_by_one[2]));
    if let Some(ours) = plain.get(1) {
        both("encode-plain", "/record", ours, "rust", &plain[0]);
    }
    match reads.get(1) {
        Some(zydis) => both("read", "", &reads[0], "zydis", zydis),
        None => println!("read: rattle {}, zydis is not here", reads[0]),
    }
    println!("list: rattle {}/record", lists[0]);
    println!("shortest: rattle {}/record", shortest[0]);
    println!("form: rattle {}/record", forms[0]);
    both("load", "/record", &loads[0], "rust", &loads[1]);
    for (name, figure) in REPEATS.iter().zip(&repeats) {
        println!("{name}: rattle {figure}/record");
    }
    println!("sum: rattle {}/text", sums[0]);
    println!("cue: rattle {}/cue", cues[0]);
    println!("run: rattle {}/step; refused on its last step, one pass without a log, {}/step", runs[0], runs[1]);
    println!("run: {:.1} million steps a second; the longest sheet {:.2} s", 1000.0 / runs[0].median, longest[0].median * 13_107_601.0 / 1e9);
    println!("convert: rattle {}/record", converts[0]);
    println!("check: rattle {}/record", checks[0]);
    for (what, growth) in [("encodes", encoded), ("records loaded", loaded)] {
        for (longer, figures) in grown.iter().zip(growth.chunks(2)) {
            let n = longer.records.len();
            let said = |figure: &Figure| format!("{:.0} us, {figure}/record", figure.median * n as f64 / 1000.0);
            println!("growth: {n} {what}: rattle {}; rust {}", said(&figures[0]), said(&figures[1]));
        }
    }
    for (n, figure) in TERMS.iter().zip(&evaluated) {
        println!("growth: a text of {n} terms: rattle {:.0} us, {figure}/term", figure.median * *n as f64 / 1000.0);
    }
    Ok(())
}

fn both(name: &str, each: &str, ours: &Figure, other: &str, theirs: &Figure) {
    println!("{name}: rattle {:.1} ns{each}, {other} {:.1} ns{each}, ratio {:.2}", ours.median, theirs.median, ours.over(theirs));
    println!("        rattle {ours}, {other} {theirs}");
}
