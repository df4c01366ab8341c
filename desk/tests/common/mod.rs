//! What several tests use: the command, run on files of a folder of its own, and numbers that look random.

#![allow(dead_code)] // each test uses a part

use std::fs;
use std::io::Write;
use std::path::{Path, PathBuf};
use std::process::{Command, Stdio};
use std::sync::atomic::{AtomicUsize, Ordering};

/// A folder that goes with the test.
pub struct Folder(PathBuf);

impl Folder {
    pub fn new() -> Folder {
        static NEXT: AtomicUsize = AtomicUsize::new(0);
        let path = std::env::temp_dir().join(format!("fsq-desk-{}-{}", std::process::id(), NEXT.fetch_add(1, Ordering::Relaxed)));
        fs::create_dir_all(&path).unwrap();
        Folder(path)
    }

    pub fn path(&self, name: &str) -> PathBuf {
        self.0.join(name)
    }

    pub fn write(&self, name: &str, bytes: impl AsRef<[u8]>) {
        fs::write(self.path(name), bytes).unwrap();
    }

    pub fn read(&self, name: &str) -> Vec<u8> {
        fs::read(self.path(name)).unwrap()
    }

    /// The names of its files.
    pub fn names(&self) -> Vec<String> {
        let mut names: Vec<String> =
            fs::read_dir(&self.0).unwrap().map(|entry| entry.unwrap().file_name().into_string().unwrap()).collect();
        names.sort();
        names
    }

    /// Runs the command in the folder.
    pub fn fsq(&self, arguments: &[&str]) -> Ran {
        self.fsq_with(arguments, b"")
    }

    /// The same with a standard input.
    pub fn fsq_with(&self, arguments: &[&str], input: &[u8]) -> Ran {
        let mut command = Command::new(env!("CARGO_BIN_EXE_fsq"));
        command.args(arguments).current_dir(&self.0).stdin(Stdio::piped()).stdout(Stdio::piped()).stderr(Stdio::piped());
        let mut child = command.spawn().unwrap();
        // A call that is wrong does not read its input.
        let _ = child.stdin.take().unwrap().write_all(input);
        let output = child.wait_with_output().unwrap();
        Ran { status: output.status.code().unwrap(), output: output.stdout, said: String::from_utf8(output.stderr).unwrap() }
    }
}

impl Drop for Folder {
    fn drop(&mut self) {
        let _ = fs::remove_dir_all(&self.0);
    }
}

/// What a call gave.
pub struct Ran {
    pub status: i32,
    pub output: Vec<u8>,
    pub said: String,
}

impl Ran {
    pub fn text(&self) -> &str {
        std::str::from_utf8(&self.output).unwrap()
    }
}

/// The repository.
pub fn repository() -> &'static Path {
    Path::new(concat!(env!("CARGO_MANIFEST_DIR"), "/.."))
}

/// The show files of tests/shows, by name, and bench/records.fsq.
pub fn shows() -> Vec<(String, Vec<u8>)> {
    let mut shows = Vec::new();
    for entry in fs::read_dir(repository().join("tests/shows")).unwrap() {
        let path = entry.unwrap().path();
        if path.extension().is_some_and(|extension| extension == "fsq") {
            shows.push((path.file_stem().unwrap().to_string_lossy().into_owned(), fs::read(&path).unwrap()));
        }
    }
    shows.push(("bench".into(), fs::read(repository().join("bench/records.fsq")).unwrap()));
    shows.sort();
    shows
}

/// Offset, bytes and record of each accepted row of the stored answers.
pub fn stored() -> Vec<(u16, Vec<u8>, Vec<u8>)> {
    let mut rows = Vec::new();
    for name in ["bench_sheet", "sample"] {
        let text = fs::read_to_string(repository().join(format!("crates/test_vectors/data/{name}.txt"))).unwrap();
        let mut lines = text.lines();
        let header = lines.next().unwrap();
        let columns = ["at", "no", "bytes", "length", "record"].map(|column| header.find(&format!(" {column} ")).unwrap() + 1);
        for line in lines {
            let hex = |from: usize, to: usize| bytes(&line[columns[from]..if to < 5 { columns[to] } else { line.len() }]);
            let at = hex(0, 1);
            if hex(1, 2) == [0] {
                rows.push((u16::from_be_bytes([at[0], at[1]]), hex(2, 3), hex(4, 5)));
            }
        }
    }
    rows
}

/// The bytes of hexadecimal digits.
pub fn bytes(text: &str) -> Vec<u8> {
    let digits: Vec<u8> = text.bytes().filter(|byte| !byte.is_ascii_whitespace()).collect();
    digits.chunks(2).map(|pair| u8::from_str_radix(std::str::from_utf8(pair).unwrap(), 16).unwrap()).collect()
}

/// The file of records of 56 bytes, or of 57.
pub fn file(origin: u16, records: &[Vec<u8>]) -> Vec<u8> {
    let version: u16 = match records.first().map_or(56, Vec::len) {
        57 => 3,
        _ if records.len() > 1000 => 2,
        _ => 1,
    };
    let mut file = b"FSQ".to_vec();
    file.extend(version.to_le_bytes());
    file.extend(origin.to_le_bytes());
    file.extend((records.len() as u16).to_le_bytes());
    file.extend(records.concat());
    file
}

/// Xorshift: the same numbers in every run.
pub struct Random(pub u64);

impl Random {
    pub fn next(&mut self) -> u64 {
        self.0 ^= self.0 << 13;
        self.0 ^= self.0 >> 7;
        self.0 ^= self.0 << 17;
        self.0
    }

    pub fn below(&mut self, limit: usize) -> usize {
        (self.next() >> 11) as usize % limit.max(1)
    }

    pub fn of<T: Copy>(&mut self, choices: &[T]) -> T {
        choices[self.below(choices.len())]
    }
}
