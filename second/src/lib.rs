//! A second interpreter of M-code, written from the paper and its change
//! requests A.1 to A.11 alone, against which another engine is compared.
//!
//! [`load`], [`start`], [`run`] and [`archive()`] are the paper's calls, [`desk`] is its
//! "A whole reading". Octal literals are the paper's opcodes, and quotations in
//! comments are its sentences.

#![forbid(unsafe_code)]

pub mod api;
pub mod archive;
pub mod assemble;
pub mod case;
pub mod channels;
pub mod collisions;
pub mod coverage;
pub mod depths;
pub mod exec;
pub mod forms;
pub mod gen;
pub mod image;
pub mod lent;
pub mod lines;
pub mod machine;
pub mod mark;
pub mod modules;
pub mod number;
pub mod opcode;
pub mod pair;
pub mod request;
pub mod requests;
pub mod results;
pub mod saved;
pub mod transfers;
pub mod traps;
pub mod unsigned;
pub mod walk;
pub mod whole;

pub use api::{archive, desk, desk_with, load, run, start};
pub use api::{ArchiveAnswer, Given, LoadAnswer, RunAnswer};
pub use machine::Machine;
