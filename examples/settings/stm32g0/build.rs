// SPDX-License-Identifier: MIT OR Apache-2.0
//! The program begins at `main`, which the chip's start-up code calls, and the vector table names `NonMaskableInt`. What no entry
//! names the linker does not keep; a linker script of your own takes the place of these words.

fn main() {
    println!("cargo:rerun-if-changed=build.rs");
    for word in ["--entry=main", "--undefined=NonMaskableInt", "--undefined=format"] {
        println!("cargo:rustc-link-arg-bins={word}");
    }
}
