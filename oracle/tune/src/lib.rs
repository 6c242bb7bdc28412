//! The original, Woyten/tune at 0b79b5a85a, as far as layouts need it.
//!
//! The modules `math`, `pergen`, `layout`, `pitch` and `temperament` are the
//! original's own files, brought here by build.rs; the package bears the
//! original's name so that its doc examples compile. `parse` and `tuning` are
//! shims of ours for modules that pitch.rs names and layouts never reach.

mod parse;
pub mod tuning;

include!(concat!(env!("OUT_DIR"), "/original.rs"));
