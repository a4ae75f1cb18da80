// SPDX-License-Identifier: MIT OR Apache-2.0
//! Without an operating system the program begins at `main`, which the chip's start-up code calls. Without an entry the linker
//! keeps nothing; a linker script of your own takes its place.

fn main() {
    println!("cargo:rerun-if-changed=build.rs");
    if std::env::var("CARGO_CFG_TARGET_OS").is_ok_and(|os| os == "none") {
        println!("cargo:rustc-link-arg-bins=--entry=main");
    }
}
