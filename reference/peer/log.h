// SPDX-License-Identifier: MIT OR Apache-2.0
/* The log of records in flash: the start, and the work that stores a command (docs/formats.md). Part of keyboard.c. */
#ifndef LOG_H
#define LOG_H
#include "keymap.h"

enum { HEADER_2 = 0x20000000, SEQUENCE_MAX = 0x0fffffff };

static const uint32_t *slot_at(uint32_t page, uint32_t slot)
{
    return flash_cells + page * PAGE_WORDS + slot * 2;
}

static bool is_free(const uint32_t *slot) { return (slot[0] & slot[1]) == 0xffffffff; }

static bool is_good(const uint32_t *slot, uint32_t word) { return slot[0] == word && slot[1] == ~word; }

static bool is_blank(uint32_t page)
{
    const uint32_t *p = slot_at(page, 0), *end = p + PAGE_WORDS;
    for (; p < end; p += 8)
        if ((p[0] & p[1] & p[2] & p[3] & p[4] & p[5] & p[6] & p[7]) != 0xffffffff)
            return false;
    return true;
}

/* Finds the active page by the headers, and whether each header slot is sound. */
static void read_headers(void)
{
    kb.active = NO_PAGE;
    kb.unsound = false;
    kb.format = 0;
    for (uint32_t page = 0; page < flash_pages; page++) {
        const uint32_t *slot = slot_at(page, 0);
        uint32_t word = slot[0];
        if ((word | slot[1]) != 0xffffffff)
            kb.unsound = true;
        uint32_t format = word >> 28;
        if (word != ~slot[1] || format - 1 > 1)
            continue;
        uint32_t sequence = word & SEQUENCE_MAX;
        if (kb.active == NO_PAGE || sequence > kb.sequence) {
            kb.active = page;
            kb.sequence = sequence;
            kb.format = format;
        }
    }
}

/* Takes up the keymap that the flash holds. */
static void mount(void)
{
    read_headers();
    reset_places(0, PLACES);
    if (kb.active == NO_PAGE)
        return;
    const uint32_t *first = slot_at(kb.active, 0), *slot = first + 2 * SLOTS;
    do /* ends at the header at the latest, which is not free */
        slot -= 2;
    while (is_free(slot));
    kb.tail = (slot - first) / 2 + 1;
    const uint32_t *end = slot + 2;
    for (slot = first + 2; slot < end; slot += 2)
        if (slot[0] == ~slot[1]) {
            uint32_t word = command_of(slot[0], kb.format);
            if (word)
                apply(word);
        }
}

static bool has_room(void) { return kb.active != NO_PAGE && kb.format == 2 && kb.tail < SLOTS; }

/* Programs a slot, and tells whether it holds the word: after a fault it is read back. */
static bool program(uint32_t page, uint32_t slot, uint32_t word)
{
    return flash_program(page, slot, word, ~word) == 0 || is_good(slot_at(page, slot), word);
}

/* Gives the command up. The transfer that waits for it is told, unless a later one took its place. */
static int failed(void)
{
    kb.turning = false;
    kb.command = 0;
    if (kb.stage == WAITING) {
        kb.stage = STALLED;
        kb.why = FLASH_FAULT;
    }
    return KB_FAILED;
}

/* Copies an entry into the next slot of the page that is being made. */
static int copy_entry(uint32_t place)
{
    uint32_t layer = place / KEYS, key = place - layer * KEYS;
    uint32_t word = (uint32_t)SET_KEY << 28 | layer << 24 | key << 16 | kb.keymap[place];
    if (!program(kb.target, ++kb.copied, word))
        return failed();
    kb.place = place + 1;
    return KB_WORKING;
}

/* The header makes the page the active one, so it is programmed after the copies. */
static int finish_turn(void)
{
    uint32_t sequence = kb.active == NO_PAGE ? 1 : kb.sequence + 1;
    if (!program(kb.target, 0, HEADER_2 + sequence))
        return failed();
    kb.active = kb.target;
    kb.sequence = sequence;
    kb.format = 2;
    kb.tail = kb.copied + 1;
    kb.turning = false;
    return KB_WORKING;
}

/* A step of a turnover: the next page is erased, the entries that are not default are copied, and its header is written. */
static int turn(void)
{
    if (!kb.turning) {
        kb.target = kb.active == NO_PAGE || kb.active + 1u == flash_pages ? 0 : kb.active + 1;
        kb.copied = kb.place = 0;
        kb.turning = true;
        if (!is_blank(kb.target)) {
            if (flash_erase(kb.target) != 0 && !is_blank(kb.target))
                return failed();
            return KB_WORKING;
        }
    }
    uint32_t place = next_changed(kb.place, PLACES);
    return place < PLACES ? copy_entry(place) : finish_turn();
}

int kb_work(void)
{
    if (kb.command == 0)
        return KB_IDLE;
    if (kb.turning || !has_room())
        return turn();
    if (!program(kb.active, kb.tail, kb.command)) {
        if (!is_free(slot_at(kb.active, kb.tail))) /* a slot that is spoiled is passed over */
            kb.tail++;
        return failed();
    }
    kb.tail++;
    apply(kb.command);
    kb.command = 0;
    if (kb.stage == WAITING)
        kb.stage = STATUS;
    return KB_SETTLED;
}
#endif
