//! Files: read by a name or from standard input, written whole or not at all.

use crate::answer::NotCarriedOut;
use std::ffi::{OsStr, OsString};
use std::fs::{self, File, OpenOptions};
use std::io::{self, Read, Write};
use std::path::{Path, PathBuf};

/// The longest input that is read. The longest show file has 456,009 bytes.
const MOST_BYTES: u64 = 1 << 24;

/// The name for standard input and standard output.
const STANDARD: &str = "-";

/// A file as a message names it.
pub fn name_of(file: &OsStr) -> String {
    match file == STANDARD {
        true => "standard input".into(),
        false => file.to_string_lossy().into_owned(),
    }
}

/// The bytes of a file, or of standard input.
pub fn read(file: &OsStr) -> Result<Vec<u8>, NotCarriedOut> {
    let failed = |why: io::Error| NotCarriedOut::File(format!("{}: {why}", name_of(file)));
    let mut bytes = Vec::new();
    match file == STANDARD {
        true => io::stdin().take(MOST_BYTES + 1).read_to_end(&mut bytes),
        false => File::open(file).and_then(|open| open.take(MOST_BYTES + 1).read_to_end(&mut bytes)),
    }
    .map_err(failed)?;
    if bytes.len() as u64 > MOST_BYTES {
        return Err(NotCarriedOut::File(format!("{}: more than {MOST_BYTES} bytes", name_of(file))));
    }
    Ok(bytes)
}

/// Writes a file whole or not at all, or standard output. One that is read in the same call is not written.
pub fn write(file: &OsStr, bytes: &[u8], inputs: &[OsString]) -> Result<(), NotCarriedOut> {
    if file == STANDARD {
        let mut out = io::stdout().lock();
        return out.write_all(bytes).and_then(|()| out.flush()).map_err(|why| NotCarriedOut::File(format!("standard output: {why}")));
    }
    let failed = |why: io::Error| NotCarriedOut::File(format!("{}: {why}", name_of(file)));
    // The file behind a link, so that the link stays.
    let path = fs::canonicalize(file).unwrap_or_else(|_| PathBuf::from(file));
    if inputs.iter().any(|input| input != STANDARD && fs::canonicalize(input).is_ok_and(|input| input == path)) {
        return Err(NotCarriedOut::WrongCall(format!("{}: is the input, which is not changed", name_of(file))));
    }
    if fs::metadata(&path).is_ok_and(|there| !there.is_file()) {
        // A device or a pipe is written to and not replaced.
        return OpenOptions::new().write(true).open(&path).and_then(|mut open| open.write_all(bytes)).map_err(failed);
    }
    replace(&path, bytes).map_err(failed)
}

/// Writes beside the file under another name, and renames.
fn replace(path: &Path, bytes: &[u8]) -> io::Result<()> {
    let name = path.file_name().ok_or(io::ErrorKind::InvalidInput)?;
    let mut beside = OsString::from(".");
    beside.push(name);
    beside.push(format!(".{}.part", std::process::id()));
    let beside = path.with_file_name(beside);
    let written = OpenOptions::new().write(true).create_new(true).open(&beside).and_then(|mut open| {
        open.write_all(bytes)?;
        open.sync_all()
    });
    let renamed = written.and_then(|()| fs::rename(&beside, path));
    if renamed.is_err() {
        let _ = fs::remove_file(&beside);
    }
    renamed
}
