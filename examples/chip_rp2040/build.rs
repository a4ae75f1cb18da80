// SPDX-License-Identifier: MIT OR Apache-2.0
//! Names the linker script, which says where flash and RAM are. Tests on the host link without it.

fn main() {
    println!("cargo:rerun-if-changed=rp2040.ld");
    if std::env::var("CARGO_CFG_TARGET_OS").is_ok_and(|os| os == "none") {
        let here = std::env::var("CARGO_MANIFEST_DIR").unwrap_or_default();
        println!("cargo:rustc-link-arg-bins=-T{here}/rp2040.ld");
    }
}
