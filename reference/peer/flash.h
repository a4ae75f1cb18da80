// SPDX-License-Identifier: MIT OR Apache-2.0
/* NOR flash as a firmware sees it: mapped into memory and read by words, programmed by slots of 8 bytes, erased by pages. */
#ifndef FLASH_H
#define FLASH_H
#include <stdint.h>

enum { PAGE_WORDS = 1024, MAX_PAGES = 8 };

extern uint32_t flash_cells[MAX_PAGES * PAGE_WORDS];
extern uint32_t flash_pages; /* 2 to 8 */

/* Both answer 0, or something else for a fault, after which any of the bits may be as they were. */
int flash_program(uint32_t page, uint32_t slot, uint32_t low, uint32_t high);
int flash_erase(uint32_t page);
#endif
