//! The call: verbs, their options and help, and the status.

use crate::answer::{Answer, NotCarriedOut};
use crate::assembly;
use crate::files;
use crate::verbs::check::Quoted;
use crate::verbs::{check, convert, cues, diff, encodings, list, make, read, report, run, text};
use std::ffi::{OsStr, OsString};
use std::path::Path;

/// 0: done. 1: something is refused, or a fault is found. 2: the call is wrong, or a file cannot be read or written.
const DONE: u8 = 0;
const FAULT: u8 = 1;
const WRONG_CALL: u8 = 2;

/// A verb, as it is called.
struct Verb {
    name: &'static str,
    /// how it is called, behind its name
    call: &'static str,
    /// what it does, in a line
    does: &'static str,
    /// the rest of its help
    help: &'static str,
    /// the number of its arguments
    arguments: usize,
    /// its options beside -o, each with a value behind it
    options: &'static [&'static str],
    /// whether -o has to be given
    needs_output: bool,
    run: fn(&Call) -> Result<Answer, NotCarriedOut>,
}

/// What stands behind a verb.
#[derive(Default)]
struct Call {
    arguments: Vec<OsString>,
    options: Vec<(&'static str, OsString)>,
}

const OUTPUT: &str = "-o";
const SOURCE: &str = "--source";
const ORIGIN: &str = "--origin";
const OFFSET: &str = "--at";
const STEPS: &str = "--steps";
const PICTURE: &str = "--svg";

const VERBS: [Verb; 11] = [
    Verb {
        name: "make",
        call: "SHOW.txt -o SHOW.fsq",
        does: "makes a show file of a text",
        help: "\
A line of the text has labels with a colon, then an instruction, then a comment behind a semicolon; each may be left out.

            ORG 256             ; the origin, 0 where it is left out
            MOV CX,3*(40+2)-1   ; a number may be a sum
    hold:   LOOP hold           ; a label is an offset, in sums too: hold+2
            MOV AL,0x80
            OUT 64,AL
            REP MOVSB           ; a repeat belongs to its instruction
            JMP short done      ; short, near and far are jump kinds
            ADD word ES:[BX+SI-2],5
    done:   HLT

Instructions are written as NASM has them for 16 bits. A mistake is said with its line and column, and nothing is written then.
Operands more or fewer than the instruction uses are a mistake. The records of the file have the places of the text as their spans.
",
        arguments: 1,
        options: &[],
        needs_output: true,
        run: |call| Ok(make::make(&call.read(0)?, &call.name(0))),
    },
    Verb {
        name: "text",
        call: "SHOW.fsq [-o SHOW.txt]",
        does: "writes a show file as text",
        help: "\
Making the text gives the same origin, the same number of records and the same bytes. Records that a branch goes to have labels L1, L2 ..
A target that is no record's start stays a number. What an instruction does not use of its record is not in the text.
",
        arguments: 1,
        options: &[],
        needs_output: false,
        run: |call| Ok(text::text(&call.read(0)?, &call.name(0))),
    },
    Verb {
        name: "check",
        call: "SHOW.fsq [--source SHOW.txt]",
        does: "says whether a show loads and every branch lands on a record",
        help: "\
Every record that is refused is told, with its number, its question, its value and limits and what to do, and every near branch whose target is
neither the start of a record nor the end of the show. The lines of the source are quoted: of the text behind --source, or of SHOW.txt
beside SHOW.fsq where making it gives the same file. docs/CREW.md says what each number means.
",
        arguments: 1,
        options: &[SOURCE],
        needs_output: false,
        run: |call| with_source(call, check::check),
    },
    Verb {
        name: "list",
        call: "SHOW.fsq [-o LIST.txt]",
        does: "lists offset, length and bytes of each record",
        help: "The text is that of fsqlist, also for more than 1,000 records: a first line with version, origin and count, or `refused N R` and status 1.\n",
        arguments: 1,
        options: &[],
        needs_output: false,
        run: |call| Ok(list::list(&call.read(0)?, &call.name(0))),
    },
    Verb {
        name: "encodings",
        call: "'ADD word [BX],5' [--at OFFSET]",
        does: "lists all byte strings that are one instruction",
        help: "Shorter ones come first. Beside each stands its form as the manual writes it, and which one a show has. OFFSET is a sum, 0 where it is left out.\n",
        arguments: 1,
        options: &[OFFSET],
        needs_output: false,
        run: |call| {
            let text = call.arguments[0].to_str().ok_or(NotCarriedOut::WrongCall("the instruction is not UTF-8".into()))?;
            Ok(encodings::encodings(text, call.offset(OFFSET)?))
        },
    },
    Verb {
        name: "read",
        call: "IMAGE [--origin OFFSET]",
        does: "reads the instructions of an image",
        help: "\
A line has offset, bytes and instruction. Where no instruction begins with the bytes it says `refused 10`, and the next byte is tried; where the
last one is not complete, `refused 11`. OFFSET is a sum, 0 where it is left out.
",
        arguments: 1,
        options: &[ORIGIN],
        needs_output: false,
        run: |call| Ok(read::read(&call.read(0)?, call.offset(ORIGIN)?, &call.name(0))),
    },
    Verb {
        name: "diff",
        call: "OLD.fsq NEW.fsq",
        does: "says what has changed between two shows, a line each",
        help: "\
Records are laid beside each other by their instructions and not by their offsets. `changed` has another number, as a delay; `added` and
`removed` are records of one show alone; `jump` is a near branch that lands elsewhere. Branches that have other bytes and land on the
same record are counted in one line. The status is 1 where a show is refused, or a branch of NEW.fsq lands on no record.
",
        arguments: 2,
        options: &[],
        needs_output: false,
        run: |call| Ok(diff::diff((&call.read(0)?, &call.name(0)), (&call.read(1)?, &call.name(1)))),
    },
    Verb {
        name: "cues",
        call: "SHEET.txt -o IMAGE [--svg PICTURE.svg]",
        does: "makes the image of a sheet of cues, after a run on the desk",
        help: "\
A line of the sheet has delay, port and mask of a cue, three sums with blanks between them, then a comment behind a semicolon. There are at most
200 cues; a delay is 1 to 65535, port and mask 0 to 255. The image is run on the desk before it is written.

    ; delay      port  mask
    3*(40+2)-1   64    0x80
    1000         64    0

The picture has one lane a port, and one mark a cue at its step.
",
        arguments: 1,
        options: &[PICTURE],
        needs_output: true,
        run: |call| Ok(cues::cues(&call.read(0)?, &call.name(0))),
    },
    Verb {
        name: "run",
        call: "IMAGE [--steps BUDGET] [--svg PICTURE.svg]",
        does: "runs an image on the desk, and says what it puts out",
        help: "\
A line has port and mask of each OUT, and of an image of cues the step before them. Of BUDGET steps, 16777216 where it is left out, HLT has
to be one. There is a picture of an image of cues alone.
",
        arguments: 1,
        options: &[STEPS, PICTURE],
        needs_output: false,
        run: |call| Ok(run::run(&call.read(0)?, call.number(STEPS, 1 << 24, "0 to 2147483647")?, &call.name(0))),
    },
    Verb {
        name: "convert",
        call: "OLD.fsq -o NEW.fsq",
        does: "converts a show from a 186 module to one for the 8086",
        help: "\
A shift or rotate by 2 to 31 becomes so many by 1, and each near branch goes to where its target then stands; all else is copied. OLD.fsq is of
version 1, and NEW.fsq too, with at most 1,000 records. A refusal names the record of OLD.fsq; of a branch that the copies make too long, or
move over 65535, it names both that of the converted show and the one of OLD.fsq that it stands for.
",
        arguments: 1,
        options: &[],
        needs_output: true,
        run: |call| Ok(convert::convert(&call.read(0)?, &call.name(0))),
    },
    Verb {
        name: "report",
        call: "SHOW.fsq -o SHOW.html [--source SHOW.txt]",
        does: "writes a show as one page for a browser",
        help: "\
The page has the listing, the near branches as arcs, and what is wrong in red. It needs no other file, and prints. It is written for a refused
show too, with status 1.
",
        arguments: 1,
        options: &[SOURCE],
        needs_output: true,
        run: |call| with_source(call, report::report),
    },
];

impl Call {
    fn option(&self, name: &str) -> Option<&OsStr> {
        self.options.iter().find(|(option, _)| *option == name).map(|(_, value)| value.as_os_str())
    }

    fn read(&self, argument: usize) -> Result<Vec<u8>, NotCarriedOut> {
        files::read(&self.arguments[argument])
    }

    /// The files that it reads, as far as its arguments are files.
    fn inputs(&self) -> Vec<OsString> {
        self.arguments.iter().cloned().chain(self.option(SOURCE).map(OsString::from)).collect()
    }

    fn name(&self, argument: usize) -> String {
        files::name_of(&self.arguments[argument])
    }

    /// The value of an option that is a number, or another where it is not given.
    fn number<T: TryFrom<i32>>(&self, name: &'static str, otherwise: T, limits: &str) -> Result<T, NotCarriedOut> {
        let Some(value) = self.option(name) else { return Ok(otherwise) };
        let value = value.to_string_lossy();
        let number = assembly::number(&value, 0).ok().and_then(|number| T::try_from(number).ok());
        number.ok_or(NotCarriedOut::WrongCall(format!("{name} {value}: a number is expected, {limits}")))
    }

    fn offset(&self, name: &'static str) -> Result<u16, NotCarriedOut> {
        self.number(name, 0, "0 to 65535")
    }
}

/// A verb of a show file that quotes its source: that behind --source, or SHOW.txt beside SHOW.fsq, if making it gives the same file.
fn with_source(call: &Call, run: fn(&[u8], &str, Option<Quoted>) -> Answer) -> Result<Answer, NotCarriedOut> {
    let (file, name) = (call.read(0)?, call.name(0));
    let beside = Path::new(&call.arguments[0]).with_extension("txt");
    let (source, text) = match call.option(SOURCE) {
        Some(source) => (files::name_of(source), files::read(source)?),
        None => (beside.to_string_lossy().into_owned(), files::read(beside.as_os_str()).unwrap_or_default()),
    };
    let quoted = Quoted { name: &source, text: &text };
    let is_source = call.option(SOURCE).is_some() || quoted.makes(&file);
    Ok(run(&file, &name, is_source.then_some(quoted)))
}

/// Carries a call out and answers its status.
pub fn main(arguments: impl IntoIterator<Item = OsString>) -> u8 {
    let mut arguments = arguments.into_iter();
    let Some(first) = arguments.next() else { return wrong_call(&usage()) };
    if is_help(&first) {
        return said(&usage());
    }
    let Some(verb) = VERBS.iter().find(|verb| first == verb.name) else {
        return wrong_call(&format!("fsq: {} is no verb\n{}", first.to_string_lossy(), usage()));
    };
    let arguments: Vec<OsString> = arguments.collect();
    if arguments.iter().any(|argument| is_help(argument)) {
        return said(&format!("usage: fsq {} {}\n\n{} {}.\n\n{}", verb.name, verb.call, verb.name, verb.does, verb.help));
    }
    match parse(verb, arguments).and_then(|call| carry_out(verb, &call)) {
        Ok(fault) => [DONE, FAULT][usize::from(fault)],
        Err(NotCarriedOut::WrongCall(why)) => wrong_call(&format!("fsq {}: {why}\nusage: fsq {} {}\n", verb.name, verb.name, verb.call)),
        Err(NotCarriedOut::File(why)) => wrong_call(&format!("fsq {}: {why}\n", verb.name)),
    }
}

fn is_help(argument: &OsStr) -> bool {
    argument == "--help" || argument == "-h"
}

fn usage() -> String {
    let mut text = String::from("usage: fsq VERB ..\n\n");
    for verb in &VERBS {
        text.push_str(&format!("    fsq {:<10}{:<43}{}\n", verb.name, verb.call, verb.does));
    }
    text.push_str(
        "\nA file may be - for standard input or standard output. -o FILE is written whole or not at all; no input is changed.\n\
         The status is 0 where it is done, 1 where something is refused or a fault is found, 2 where the call is wrong or a file\n\
         cannot be read or written. fsq VERB --help says more.\n",
    );
    text
}

fn said(text: &str) -> u8 {
    match files::write(OsStr::new("-"), text.as_bytes(), &[]) {
        Ok(()) => DONE,
        Err(NotCarriedOut::WrongCall(why) | NotCarriedOut::File(why)) => wrong_call(&format!("fsq: {why}\n")),
    }
}

fn wrong_call(text: &str) -> u8 {
    eprint_quietly(text);
    WRONG_CALL
}

/// Where standard error is closed there is no one to tell.
fn eprint_quietly(text: &str) {
    use std::io::Write;
    let _ = std::io::stderr().write_all(text.as_bytes());
}

fn parse(verb: &Verb, arguments: Vec<OsString>) -> Result<Call, NotCarriedOut> {
    let mut call = Call::default();
    let mut arguments = arguments.into_iter();
    while let Some(argument) = arguments.next() {
        if !argument.as_encoded_bytes().starts_with(b"-") || argument == "-" {
            call.arguments.push(argument);
            continue;
        }
        let shown = argument.to_string_lossy().into_owned();
        let Some(&option) = [OUTPUT].iter().chain(verb.options).find(|&&option| argument == option) else {
            return Err(NotCarriedOut::WrongCall(format!("{shown} is no option")));
        };
        if call.option(option).is_some() {
            return Err(NotCarriedOut::WrongCall(format!("{shown} stands twice")));
        }
        let value = arguments.next().ok_or(NotCarriedOut::WrongCall(format!("{shown} has no value")))?;
        call.options.push((option, value));
    }
    if call.arguments.len() != verb.arguments {
        return Err(NotCarriedOut::WrongCall(format!("{} arguments, and {} expected", call.arguments.len(), verb.arguments)));
    }
    if verb.needs_output && call.option(OUTPUT).is_none() {
        return Err(NotCarriedOut::WrongCall("-o and a file are expected".into()));
    }
    if call.inputs().iter().filter(|input| *input == "-").count() > 1 {
        return Err(NotCarriedOut::WrongCall("standard input stands twice".into()));
    }
    if call.option(PICTURE).is_some_and(|picture| call.option(OUTPUT) == Some(picture)) {
        return Err(NotCarriedOut::WrongCall("image and picture are one file".into()));
    }
    Ok(call)
}

/// Runs a verb and writes what it answers: whether there is a fault.
fn carry_out(verb: &Verb, call: &Call) -> Result<bool, NotCarriedOut> {
    let mut answer = (verb.run)(call)?;
    let inputs = call.inputs();
    match (call.option(PICTURE), &answer.picture) {
        (Some(file), Some(picture)) => files::write(file, picture.as_bytes(), &inputs)?,
        (Some(_), None) if !answer.fault => {
            answer.said.push_str(&format!("{}: there is no picture: it is no image of cues\n", call.name(0)));
            answer.fault = true;
        }
        _ => {}
    }
    // What is wrong is said also where the output cannot be written.
    eprint_quietly(&answer.said);
    if let Some(output) = &answer.output {
        files::write(call.option(OUTPUT).unwrap_or(OsStr::new("-")), output, &inputs)?;
    }
    Ok(answer.fault)
}
