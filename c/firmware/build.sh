#!/usr/bin/env bash
# SPDX-License-Identifier: MIT OR Apache-2.0
# build.sh TARGET [FOLDER]: builds libwuzhikar.a for a target of rustc and puts it, with its header, into FOLDER (out/TARGET). If
# rustc has no library for the target, Debian's is built from its sources; if they are missing too, it says what to install.
#
# thumbv6m-none-eabi      Cortex-M0, M0+     thumbv7m-none-eabi       Cortex-M3
# thumbv7em-none-eabi     Cortex-M4, M7      thumbv7em-none-eabihf    the same, numbers of floating point in registers
# thumbv8m.base-none-eabi Cortex-M23         thumbv8m.main-none-eabi  Cortex-M33
# riscv32imc-unknown-none-elf  RISC-V without atomics
set -euo pipefail
cd "$(dirname "$(readlink -f "$0")")"
[ $# -gt 0 ] || { sed -n 's/^# \?//p' "$0" | tail -n +2 >&2; exit 2; }
target=$1 out=$(realpath -m "${2:-out/$1}")
has() { [ -d "$("$1" --print sysroot)/lib/rustlib/$target/lib" ]; }
if has "${RUSTC:-rustc}"; then
    :
elif [ -x /usr/bin/rustc ] && library=/usr/src/rustc-$(/usr/bin/rustc --version | cut -d' ' -f2)/library && [ -d "$library/compiler-builtins" ]; then
    sysroot=${WUZHIKAR_SYSROOT:-$PWD/target/sysroot}
    [ -f "$sysroot/lib/rustlib/$target/lib/libcompiler_builtins-made.rlib" ] || ../../tools/export_rust/make_core.sh /usr/bin/rustc "$library" "$target" "$sysroot"
    export RUSTC=/usr/bin/rustc RUSTFLAGS="${RUSTFLAGS:-} --sysroot $sysroot"
else
    echo "rustc has no library for $target. Install it by: rustup target add $target" >&2
    echo "or install Debian's packages rustc-web and rust-web-src, of 1.96 or later" >&2
    exit 1
fi
cargo build --release --target "$target"
install -D -m 644 "${CARGO_TARGET_DIR:-target}/$target/release/libwuzhikar.a" "$out/libwuzhikar.a"
install -m 644 wuzhikar.h "$out/wuzhikar.h"
echo "$out/libwuzhikar.a"
