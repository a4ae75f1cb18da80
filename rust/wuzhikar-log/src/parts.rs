// Written by bin/export-rust.
//! The crates of the proved source, for the crates of this workspace. **Not part of the stable interface**: what is here changes
//! without a word, and has calls with a condition on their caller that nothing checks.
#![allow(dead_code, unused_imports, unused_variables, clippy::all)]

pub mod ecc_flash;
pub mod flash_model;
pub mod page_turnover;
pub mod records;
pub mod settings;
pub mod settings_log;
pub mod steady_flash;
