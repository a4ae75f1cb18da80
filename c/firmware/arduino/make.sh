#!/usr/bin/env bash
# SPDX-License-Identifier: MIT OR Apache-2.0
# make.sh [FOLDER]: makes a library for Arduino and PlatformIO in FOLDER (out/Wuzhikar), to be put into the folder of libraries. It has a
# library for each processor, by the name that Arduino's build.mcu gives it. Not tried: neither tool can be had here.
set -euo pipefail
cd "$(dirname "$(readlink -f "$0")")/.."
out=$(realpath -m "${1:-out/Wuzhikar}")
install -D -m 644 arduino/library.properties "$out/library.properties"
for pair in thumbv6m-none-eabi:cortex-m0 thumbv6m-none-eabi:cortex-m0plus thumbv7m-none-eabi:cortex-m3 thumbv7em-none-eabi:cortex-m4 \
    thumbv7em-none-eabi:cortex-m7 thumbv8m.main-none-eabi:cortex-m33; do
    ./build.sh "${pair%:*}" >/dev/null
    install -D -m 644 "out/${pair%:*}/libwuzhikar.a" "$out/src/${pair#*:}/libwuzhikar.a"
done
install -m 644 wuzhikar.h "$out/src/wuzhikar.h"
echo "$out"
