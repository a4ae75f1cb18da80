//! Calls that take the stand-in for the source's allocator, for the crates of this workspace. Written by hand. **Not part of
//! the stable interface.**

use crate::parts::descriptor_parse::Parser;
use crate::rattle::alloc::Global;

/// The start of a parser, as the source calls it.
pub trait ParserCalls {
    /// Makes a parser that was fed nothing.
    fn new(alloc: Global) -> Self;
}

impl ParserCalls for Parser {
    fn new(alloc: Global) -> Parser {
        Parser::new(alloc)
    }
}
