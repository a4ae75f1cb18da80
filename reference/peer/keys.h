// SPDX-License-Identifier: MIT OR Apache-2.0
/* Scans: debounce, presses and releases (docs/formats.md). Part of keyboard.c. */
#ifndef KEYS_H
#define KEYS_H
#include "reports.h"

static void release(unsigned key)
{
    unsigned code = kb.code[key];
    if (code > MOMENTARY)
        kb.momentary[code - MOMENTARY]--;
}

/* A press fixes its code: that of the highest active layer which is not transparent there. */
static void press(unsigned key)
{
    unsigned layer = LAYERS, code = TRANSPARENT;
    while (code == TRANSPARENT && layer-- > 0)
        if (layer == 0 || kb.momentary[layer])
            code = kb.keymap[layer * KEYS + key];
    if (code == TRANSPARENT)
        code = 0;
    if (code > MOMENTARY)
        kb.momentary[code - MOMENTARY]++;
    kb.code[key] = code;
}

/* Takes the keys that changed: releases first, then presses, each by rising key. `down` has them as they are now. */
static void edges(const uint32_t flip[WORDS])
{
    for (unsigned w = 0; w < WORDS; w++)
        for (uint32_t keys = flip[w] & ~kb.down[w]; keys; keys &= keys - 1)
            release(32 * w + __builtin_ctz(keys));
    for (unsigned w = 0; w < WORDS; w++)
        for (uint32_t keys = flip[w] & kb.down[w]; keys; keys &= keys - 1)
            press(32 * w + __builtin_ctz(keys));
    want_anew();
}

/* Counts one more sample of each key, and gives the keys of which the fifth in a row says otherwise than before, and whether
 * there are any. A sample that says the same sets the count of its key to 0. */
static uint32_t debounce(const uint16_t rows[6], uint32_t flip[WORDS])
{
    uint32_t any = 0;
    for (unsigned w = 0; w < WORDS; w++) {
        uint32_t other = (rows[2 * w] | (uint32_t)rows[2 * w + 1] << 16) ^ kb.down[w];
        uint32_t a = kb.count0[w], b = kb.count1[w];
        uint32_t c = (kb.count2[w] ^ (a & b)) & other;
        b = (a ^ b) & other;
        a = ~a & other;
        uint32_t five = a & c; /* 101 in binary; no count goes beyond */
        flip[w] = five;
        any |= five;
        kb.count0[w] = a ^ five;
        kb.count1[w] = b;
        kb.count2[w] = c ^ five;
        kb.down[w] ^= five;
    }
    return any;
}

void kb_scan(const uint16_t rows[6])
{
    uint32_t flip[WORDS], any = debounce(rows, flip);
    if (kb.age[0] < AGE_MAX)
        kb.age[0]++;
    if (kb.age[1] < AGE_MAX)
        kb.age[1]++;
    if (any)
        edges(flip);
}
#endif
