// Written by bin/export-rust.
//! The crates of the proved source, for the crates of this workspace. **Not part of the stable interface**: what is here changes
//! without a word, and has calls with a condition on their caller that nothing checks.
#![allow(dead_code, unused_imports, unused_variables, clippy::all)]

pub mod explanations;
pub mod host;
pub mod kbsim;
pub mod parse_lines;
pub mod script;
pub mod text_io;
pub mod world;
