// Written by bin/export-rust.
//! The crates of the proved source, for the crates of this workspace. **Not part of the stable interface**: what is here changes
//! without a word, and has calls with a condition on their caller that nothing checks.
#![allow(dead_code, unused_imports, unused_variables, clippy::all)]

pub mod field_details;
pub mod field_values;
pub mod report_read;
pub mod report_write;
