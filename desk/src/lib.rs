//! The command `fsq`, for those who write shows and those who fire them. It stands over the crate `fsq`: what bytes an instruction has, and whether a
//! file loads, the proved library answers. Text, listing, comparison and pictures are this crate's, and stand outside the proofs.

#![forbid(unsafe_code)]

pub mod alignment;
pub mod answer;
pub mod assembly;
pub mod call;
pub mod cue;
pub mod explain;
pub mod files;
pub mod landing;
pub mod markup;
pub mod place;
pub mod sheet;
pub mod source;
pub mod timeline;
pub mod verbs;
