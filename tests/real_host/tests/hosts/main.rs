// SPDX-License-Identifier: MIT OR Apache-2.0
//! The program with hosts.
#![forbid(unsafe_code)]

mod hostile;
mod program;
mod serve;
