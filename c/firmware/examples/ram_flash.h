// SPDX-License-Identifier: MIT OR Apache-2.0
/* What a program on a PC has in place of a chip: a flash of two pages in RAM, which begins blank, and a panic that ends it. */
#ifndef RAM_FLASH_H
#define RAM_FLASH_H

#include "wuzhikar.h"

#include <stdlib.h>
#include <string.h>

/* The cells of the flash, inverted, so that what is not initialized is blank. */
static uint8_t cells[2][WZ_PAGE_SLOTS][WZ_SLOT_BYTES];

static void read_slot(void *context, size_t page, size_t slot, uint8_t *bytes) {
    (void)context;
    for (int at = 0; at < WZ_SLOT_BYTES; at++)
        bytes[at] = (uint8_t)~cells[page][slot][at];
}

static int program_slot(void *context, size_t page, size_t slot, const uint8_t *bytes) {
    (void)context;
    for (int at = 0; at < WZ_SLOT_BYTES; at++)
        cells[page][slot][at] |= (uint8_t)~bytes[at];
    return 0;
}

static int erase_page(void *context, size_t page) {
    (void)context;
    memset(cells[page], 0, WZ_PAGE_BYTES);
    return 0;
}

static const wz_flash ram_flash = {NULL, 2, read_slot, program_slot, erase_page};

void wz_panic(void) { abort(); }

#endif
