//! The verbs, one a file. Each is a function of bytes, so that it can be tried without files; `call` has their names, options and help.

pub mod check;
pub mod convert;
pub mod cues;
pub mod diff;
pub mod encodings;
pub mod list;
pub mod make;
pub mod read;
pub mod report;
pub mod run;
pub mod text;
