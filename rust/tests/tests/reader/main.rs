//! What `wuzhikar-reader` says of report descriptors and of reports.

mod large;
mod lenient;
mod pieces;
mod questions;
mod texts;
