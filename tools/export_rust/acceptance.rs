//! What the tests of crates/acceptance take of Rattle's library besides the rest of `rattle`.

use super::alloc::{AllocError, Global};
use super::memory::PushIn;
use core::fmt;

pub mod process {
    pub trait Abort {}
}

pub mod test {
    /// Why a test failed.
    #[derive(Debug)]
    pub struct Fail;

    impl From<wuzhikar::parts::descriptor_build::TooLong> for Fail {
        fn from(_: wuzhikar::parts::descriptor_build::TooLong) -> Fail {
            Fail
        }
    }
}

/// The runtime of a test.
#[derive(Clone, Copy, Debug)]
pub struct HostRuntime;

impl process::Abort for HostRuntime {}

pub trait AllocGlobal {
    fn alloc(&self) -> Global {}
}

impl AllocGlobal for HostRuntime {}

impl HostRuntime {
    pub fn alloc(&self) -> Global {}
}

/// A text whose growth may be refused.
#[derive(Debug)]
pub struct String(std::string::String);

impl String {
    pub fn new(_alloc: Global) -> String {
        String(std::string::String::new())
    }

    pub fn push_str(&mut self, text: &str) -> Result<(), AllocError> {
        self.0.try_reserve(text.len())?;
        self.0.push_str(text);
        Ok(())
    }

    pub fn as_str(&self) -> &str {
        &self.0
    }
}

impl PushIn<char> for String {
    type Outcome = Result<(), AllocError>;

    fn push_in(&mut self, character: char) -> Result<(), AllocError> {
        self.push_str(character.encode_utf8(&mut [0; 4]))
    }
}

impl core::ops::Deref for String {
    type Target = str;

    fn deref(&self) -> &str {
        &self.0
    }
}

/// `format!`, whose memory may be refused.
pub fn format(_alloc: Global, shown: fmt::Arguments<'_>) -> Result<String, AllocError> {
    Ok(String(shown.to_string()))
}
