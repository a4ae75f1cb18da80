/* SPDX-License-Identifier: MIT OR Apache-2.0 */
/* 2 MB of flash, of which the last 24 KB are the log's (src/flash.rs), and 256 KB of RAM. */
ENTRY(reset)
MEMORY { FLASH : ORIGIN = 0x10000000, LENGTH = 2024K  RAM : ORIGIN = 0x20000000, LENGTH = 256K }
SECTIONS {
  .boot : { KEEP(*(.boot)) } > FLASH
  ASSERT(SIZEOF(.boot) == 256, "the boot stage has 256 bytes")
  .text : { KEEP(*(.vectors)) *(.text.reset) *(.text .text.*) *(.rodata .rodata.*) . = ALIGN(4); } > FLASH
  /* What runs while the flash is off lies here: the start-up copies it. Vectors stand at a multiple of 256. */
  .data : ALIGN(256) { data_start = .; KEEP(*(.ram_vectors)) *(.ram .ram.*) *(.data .data.*) . = ALIGN(4); data_end = .; } > RAM AT > FLASH
  data_from = LOADADDR(.data);
  .bss (NOLOAD) : { bss_start = .; *(.bss .bss.*) *(COMMON) . = ALIGN(4); bss_end = .; } > RAM
  stack_top = ORIGIN(RAM) + LENGTH(RAM);
  /DISCARD/ : { *(.ARM.exidx*) *(.ARM.attributes) }
}
