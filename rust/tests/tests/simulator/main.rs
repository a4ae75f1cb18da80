//! What `kbsim` does as a library: the host, the world, and what its caller alone can make: readers and writers that fail; and the
//! texts of descriptors.

mod host;
mod streams;
mod texts;
mod world;
