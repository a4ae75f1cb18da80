/* SPDX-License-Identifier: MIT OR Apache-2.0 */
/* nRF51822 QFAA: 256 KB of flash, of which the last 8 KB are the log's (src/plain.rs; the program is far from the 24 KB of src/ecc.rs), and 16 KB of RAM. */
ENTRY(reset)
MEMORY { FLASH : ORIGIN = 0, LENGTH = 248K  RAM : ORIGIN = 0x20000000, LENGTH = 16K }
SECTIONS {
  .text : { KEEP(*(.vectors)) *(.text.reset) *(.text .text.*) *(.rodata .rodata.*) . = ALIGN(4); } > FLASH
  .data : { *(.data .data.*) } > RAM
  ASSERT(SIZEOF(.data) == 0, "what is in RAM begins as zeros")
  .bss (NOLOAD) : { bss_start = .; *(.bss .bss.*) *(COMMON) . = ALIGN(4); bss_end = .; } > RAM
  stack_top = ORIGIN(RAM) + LENGTH(RAM);
  /DISCARD/ : { *(.ARM.exidx*) *(.ARM.attributes) }
}
