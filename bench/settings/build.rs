// SPDX-License-Identifier: MIT OR Apache-2.0
//! Without an operating system a program begins at `_start`.

fn main() {
    println!("cargo:rerun-if-changed=build.rs");
    if std::env::var("CARGO_CFG_TARGET_OS").is_ok_and(|os| os == "none") {
        println!("cargo:rustc-link-arg-bins=--entry=_start");
    }
}
