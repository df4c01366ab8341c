//! The proved 8086 encoder for show files: an instruction becomes bytes or one refusal, bytes become an instruction, an instruction the list of
//! all its byte strings, a show file the image of its records, a sum its value, and cues the image of a field module.
//!
//! ```
//! use fsq::{encode, list, read, Base, Instruction, Operand, Operation};
//!
//! // Word ADD [BX],5: document 01's bench sheet has 83 07 05 and twelve entries.
//! let add = Instruction::two(Operation::ADD, Operand::memory(Base::BX, 0).word(), 5);
//! let bytes = encode(&add, 256)?;
//! assert_eq!(bytes, [0x83, 0x07, 0x05]);
//! assert_eq!(read(&bytes, 256)?.to_string(), "ADD word [BX],5");
//! assert_eq!(list(&add, 256)?.len(), 12);
//! # Ok::<(), fsq::Refusal>(())
//! ```
//!
//! A refusal says what is wrong in words, and has the number, the question, the span and the values for a program:
//!
//! ```
//! use fsq::{encode, Base, Instruction, Operand, Operation, Reason};
//!
//! // Document 01's bench sheet: MOV byte [BX],300 is 5.
//! let mov = Instruction::two(Operation::MOV, Operand::memory(Base::BX, 0).byte(), 300);
//! let refusal = encode(&mov, 0).unwrap_err();
//! assert_eq!(refusal.number(), 5);
//! assert_eq!(refusal.reason, Reason::ImmediateOutOfRange { value: 300, low: -128, high: 255 });
//! assert_eq!(refusal.to_string(), "refusal 5 (question 6): value 300 is outside -128..255");
//! ```
//!
//! [`form`] tells by which form an instruction is written, and a refusal the question that refuses it:
//!
//! ```
//! use fsq::{form, Instruction, Operation, Register};
//!
//! // Document 02, No. 3.
//! let mov = form(&Instruction::two(Operation::MOV, Register::BX, 5), 0)?;
//! assert_eq!(mov.to_string(), "form BB Reg:Word Imm:Unspecified -32768..65535");
//! # Ok::<(), fsq::Refusal>(())
//! ```
//!
//! [`encode_shortest`] gives the first string of the list, of which none is shorter:
//!
//! ```
//! use fsq::{encode, encode_shortest, Instruction, Operation, Register};
//!
//! // Document 01's bench sheet has 83 C0 05 for ADD AX,5; of its three strings 05 05 00 stands first.
//! let add = Instruction::two(Operation::ADD, Register::AX, 5);
//! assert_eq!(encode(&add, 0)?, [0x83, 0xC0, 0x05]);
//! assert_eq!(encode_shortest(&add, 0)?, [0x05, 0x05, 0x00]);
//! # Ok::<(), fsq::Refusal>(())
//! ```
//!
//! A repeat belongs to its string operation, and is read with it; a show with one is a file of version 3:
//!
//! ```
//! use fsq::{encode, read, Instruction, Operation, Repeat};
//!
//! // Document 02, No. 11, and the SDM's F3 A4.
//! let copy = Instruction::none(Operation::MOVSB).repeated(Repeat::Rep);
//! assert_eq!(encode(&copy, 0)?, [0xF3, 0xA4]);
//! assert_eq!(read(&[0xF3, 0xA4], 0)?.to_string(), "REP MOVSB");
//! # Ok::<(), fsq::Refusal>(())
//! ```
//!
//! [`evaluate`] gives the value of a sum, as delays are written:
//!
//! ```
//! // Document 02, No. 6.
//! assert_eq!(fsq::evaluate("3*(40+2)-1")?, 125);
//! # Ok::<(), fsq::Refusal>(())
//! ```
//!
//! [`compile`] makes cues the image of a field module, with no instruction to handle:
//!
//! ```
//! # #[cfg(feature = "alloc")] {
//! use fsq::{compile, Cue};
//!
//! // Document 02, No. 9: MOV CX,10; LOOP to itself; MOV AL,1; OUT 97,AL; HLT.
//! let image = compile(&[Cue::new(10, 97, 1)])?;
//! assert_eq!(image, [0xB9, 0x0A, 0x00, 0xE2, 0xFE, 0xB0, 0x01, 0xE6, 0x61, 0xF4]);
//! # }
//! # Ok::<(), fsq::Refusal>(())
//! ```
//!
//! [`run`] runs an image on the desk, and gives the ports and masks that it puts out:
//!
//! ```
//! use fsq::{run, Pair};
//!
//! // Document 02, No. 9: MOV CX,10; LOOP to itself; MOV AL,1; OUT 97,AL; HLT. Its No. 10: 10 + 3 steps and HLT.
//! let image = [0xB9, 0x0A, 0x00, 0xE2, 0xFE, 0xB0, 0x01, 0xE6, 0x61, 0xF4];
//! let mut log = [0; 2];
//! let ran = run(&image, 10 + 3 + 1, &mut log)?;
//! assert_eq!(ran.count(), 14);
//! assert!(ran.pairs().eq([Pair { port: 97, mask: 1 }]));
//! # Ok::<(), fsq::Refusal>(())
//! ```
//!
//! [`check`] says whether every near branch of a show goes to the start of a record or to the end.
//!
//! [`convert`] makes a show from a 186 module one that the 8086 runs; its shifts by a count become shifts by 1, and its branches keep their targets.
//!
//! The functions keep nothing between calls, and several threads may call them at once. They are proved; the text of instructions and operands
//! is not.
//!
//! Without the feature `std`, which is on by default, the crate is `no_std` and allocates nothing: `load`, `show_file`, `Show::load`, `compile` and
//! `convert` are left out, and [`Show::load_into`], [`compile_into`] and [`convert_into`] write into a lent slice. The feature `alloc` has them without `std`.

#![no_std]
#![deny(missing_docs)]
#![deny(unsafe_code)]

#[cfg(feature = "alloc")]
extern crate alloc;

mod bindings;
mod convert;
mod cue;
mod encoding;
mod form;
mod instruction;
// The only place that calls C.
#[allow(unsafe_code)]
mod library;
mod listing;
mod operand;
mod operation;
mod plain;
mod reading;
mod refusal;
mod run;
mod show;
mod sum;
mod text;

#[cfg(feature = "alloc")]
pub use convert::convert;
pub use convert::convert_into;
#[cfg(feature = "alloc")]
pub use cue::compile;
pub use cue::{compile_bytes, compile_into, Cue};
pub use encoding::{encode, encode_record, encode_shortest, encode_shortest_record, Bytes};
pub use form::{form, form_record, Form};
pub use instruction::{Instruction, RecordBytes, Repeat, RECORD_LENGTH, REPEAT_RECORD_LENGTH};
pub use listing::{list, list_record, List};
pub use operand::{Base, Jump, Operand, Register, Segment, Size, Span};
pub use operation::Operation;
pub use reading::{read, Extension, Part, Reading};
pub use refusal::{Found, Reason, Refusal};
pub use run::{run, Pair, Run};
pub use show::{check, records, Record, Records, Show};
#[cfg(feature = "alloc")]
pub use show::{load, show_file};
pub use sum::evaluate;
pub use text::ParseError;

/// The examples of README.md.
#[cfg(all(doctest, feature = "std"))]
#[doc = include_str!("../README.md")]
struct Readme;
