//! The program `kbsim` in plain Rust.
#![forbid(unsafe_code)]

mod program;

fn main() -> std::process::ExitCode {
    program::status()
}
