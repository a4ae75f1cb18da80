// SPDX-License-Identifier: MIT OR Apache-2.0
/* A flash in RAM, whose power is cut inside the operation of a number, and what the tests share. */
#ifndef PLAYED_FLASH_H
#define PLAYED_FLASH_H

#include "wuzhikar.h"

#include <stdio.h>
#include <stdlib.h>
#include <string.h>

#define NEEDS(what) ((what) ? (void)0 : failed(__FILE__, __LINE__, #what))

static inline void failed(const char *file, int line, const char *what) {
    fprintf(stderr, "%s:%d: not so: %s\n", file, line, what);
    exit(1);
}

typedef struct played_flash {
    uint8_t cells[2][WZ_PAGE_SLOTS][WZ_SLOT_BYTES];
    long cut;        /* so many operations are made before one is torn; below 0 none is */
    int is_off;      /* the power is gone: nothing changes any more */
    unsigned torn;   /* which of its bits that one still changes */
    long operations; /* so many were asked for */
} played_flash;

static inline void blank(played_flash *flash) {
    memset(flash, 0, sizeof *flash);
    memset(flash->cells, 0xff, sizeof flash->cells);
    flash->cut = -1;
}

/* The power comes back. */
static inline void power(played_flash *flash) {
    flash->is_off = 0;
    flash->cut = -1;
}

/* The bits of a byte that the operation changes. */
static inline uint8_t changed(played_flash *flash) {
    return flash->is_off ? 0 : flash->cut == 0 ? (uint8_t)(flash->torn = flash->torn * 1103515245u + 12345u) : 0xff;
}

static inline int ended(played_flash *flash) {
    flash->operations++;
    if (flash->cut == 0)
        flash->is_off = 1;
    if (flash->cut >= 0)
        flash->cut--;
    return flash->is_off;
}

static inline void read_slot(void *context, size_t page, size_t slot, uint8_t *bytes) {
    memcpy(bytes, ((played_flash *)context)->cells[page][slot], WZ_SLOT_BYTES);
}

static inline int program_slot(void *context, size_t page, size_t slot, const uint8_t *bytes) {
    played_flash *flash = context;
    for (int byte = 0; byte < WZ_SLOT_BYTES; byte++)
        flash->cells[page][slot][byte] &= (uint8_t)(bytes[byte] | ~changed(flash));
    return ended(flash);
}

static inline int erase_page(void *context, size_t page) {
    played_flash *flash = context;
    for (int slot = 0; slot < WZ_PAGE_SLOTS; slot++)
        for (int byte = 0; byte < WZ_SLOT_BYTES; byte++)
            flash->cells[page][slot][byte] |= changed(flash);
    return ended(flash);
}

static inline wz_flash table_of(played_flash *flash) {
    wz_flash table = {flash, 2, read_slot, program_slot, erase_page};
    return table;
}

#endif
