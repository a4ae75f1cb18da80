//! What `wuzhikar-log` does: a flash in memory, the log of words on it, and the adapter for flash with error correction.

mod compactions;
mod images;
mod rows;
mod steady;
