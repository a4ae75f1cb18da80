// SPDX-License-Identifier: MIT OR Apache-2.0
//! The second stage of the boot, which the ROM copies into RAM if its CRC32 is right: the flash is mapped with the read command
//! 03h, which each serial NOR has. The same code maps it again behind each operation (`flash.rs`), and then returns.

/// The code, of 4 bytes less than the stage has.
const CODE: [u16; 36] = [
    0xb500, //       push  {lr}            where the ROM calls it, lr is 0
    0x2318, //       movs  r3, #0x18
    0x061b, //       lsls  r3, r3, #24     r3 = SSI
    0x2100, //       movs  r1, #0
    0x6099, //       str   r1, [r3, #0x08] SSIENR = 0
    0x2104, //       movs  r1, #4
    0x6159, //       str   r1, [r3, #0x14] BAUDR = 4: 31 MHz of 125
    0x490b, //       ldr   r1, CTRLR0
    0x6019, //       str   r1, [r3]
    0x490b, //       ldr   r1, SPI_CTRLR0
    0x20f4, //       movs  r0, #0xf4
    0x5019, //       str   r1, [r3, r0]
    0x2100, //       movs  r1, #0
    0x6059, //       str   r1, [r3, #0x04] CTRLR1 = 0: one word a read
    0x2101, //       movs  r1, #1
    0x6099, //       str   r1, [r3, #0x08] SSIENR = 1
    0xbc01, //       pop   {r0}
    0x2800, //       cmp   r0, #0
    0xd000, //       beq   1f
    0x4700, //       bx    r0
    0x2001, // 1:    movs  r0, #1          the vectors, at 10000100h: no word is a place in flash
    0x0500, //       lsls  r0, r0, #20
    0x3001, //       adds  r0, #1
    0x0200, //       lsls  r0, r0, #8
    0x4904, //       ldr   r1, VTOR
    0x6008, //       str   r0, [r1]
    0xc806, //       ldm   r0!, {r1, r2}
    0xf381, //       msr   msp, r1
    0x8808, //
    0x4710, //       bx    r2
    0x0300, // CTRLR0: 32 bits a frame, a command and then a read
    0x001f, //
    0x0218, // SPI_CTRLR0: command 03h of 8 bits, address of 24
    0x0300, //
    0xed08, // VTOR
    0xe000, //
];

/// The stage with its checksum.
pub const STAGE: [u8; 256] = {
    let (mut stage, mut place) = ([0; 256], 0);
    while place < CODE.len() {
        [stage[2 * place], stage[2 * place + 1]] = CODE[place].to_le_bytes();
        place += 1;
    }
    let check = crc32(stage.split_at(252).0).to_le_bytes();
    [stage[252], stage[253], stage[254], stage[255]] = check;
    stage
};

/// The checksum of the ROM: 04C11DB7h, from the highest bit, from all ones.
pub const fn crc32(bytes: &[u8]) -> u32 {
    let (mut check, mut bit) = (u32::MAX, 0);
    while bit < 8 * bytes.len() {
        let differs = check >> 31 != (bytes[bit / 8] >> (7 - bit % 8) & 1) as u32;
        check = check << 1 ^ if differs { 0x04c1_1db7 } else { 0 };
        bit += 1;
    }
    check
}

#[cfg(target_os = "none")]
#[unsafe(link_section = ".boot")]
#[used]
static IN_FLASH: [u8; 256] = STAGE;
