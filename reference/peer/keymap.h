// SPDX-License-Identifier: MIT OR Apache-2.0
/* Codes, the keymap, and commands as the words that records hold (docs/formats.md). Part of keyboard.c. */
#ifndef KEYMAP_H
#define KEYMAP_H
#include "state.h"

enum { TRANSPARENT = 1, MODIFIER = 0xe0, CONSUMER = 0x4000, MOMENTARY = 0x5000 };
enum { SET_KEY = 1, RESET_LAYER, RESET_ALL }; /* operations of a command */

/* HUT page 07h has the usages 04h to A4h as keys and E0h to E7h as modifiers; of page 0Ch 001h to 3FFh are taken. */
static bool is_key(uint32_t code) { return code - 0x04 <= 0xa4 - 0x04; }
static bool is_modifier(uint32_t code) { return code - MODIFIER < 8; }
static bool is_consumer(uint32_t code) { return code - (CONSUMER + 1) < 0x3ff; }
static bool is_momentary(uint32_t code) { return code - (MOMENTARY + 1) < LAYERS - 1; }

static bool is_code(uint32_t code)
{
    return code <= TRANSPARENT || is_key(code) || is_modifier(code) || is_consumer(code) || is_momentary(code);
}

#ifdef KB_CODES /* a file with a maker's default codes, by place */
static const uint16_t CODES[PLACES] = {
#include KB_CODES
};

static uint32_t default_at(uint32_t place) { return CODES[place]; }
#else
static uint32_t default_at(uint32_t place)
{
    return place < 88 ? place + 4 : place < KEYS ? place + (MODIFIER - 88) : TRANSPARENT;
}
#endif

static void reset_places(uint32_t from, uint32_t end)
{
    for (; from < end; from++)
        kb.keymap[from] = default_at(from);
}

/* The first place from here on whose entry is not the default, or the end. */
static uint32_t next_changed(uint32_t from, uint32_t end)
{
    while (from < end && kb.keymap[from] == default_at(from))
        from++;
    return from;
}

/* The place that a command writes, or the first one that it resets: what an operation does not use is 0. */
static uint32_t place_of(uint32_t word)
{
    return (word >> 24 & 0xf) * KEYS + (word >> 16 & 0xff);
}

/* Where the places end that a command resets. */
static uint32_t end_of(uint32_t word, uint32_t place)
{
    return word >> 28 == RESET_LAYER ? place + KEYS : PLACES;
}

static void apply(uint32_t word)
{
    uint32_t place = place_of(word);
    if (word >> 28 == SET_KEY)
        kb.keymap[place] = word;
    else
        reset_places(place, end_of(word, place));
}

static bool changes(uint32_t word)
{
    uint32_t place = place_of(word);
    if (word >> 28 == SET_KEY)
        return kb.keymap[place] != (uint16_t)word;
    uint32_t end = end_of(word, place);
    return next_changed(place, end) < end;
}

/* What 4000h to 400Fh say on a page of format 1. */
static const uint16_t FORMAT_1[16] = {
    0xb0, 0xb1, 0xb2, 0xb3, 0xb4, 0xb5, 0xb6, 0xb7, 0xb8, 0xcd, 0xe2, 0xe9, 0xea, 0x192, 0x223, 0x224
};

/* The command that a word says on a page of this format, or 0. */
static uint32_t command_of(uint32_t word, unsigned format)
{
    uint32_t layer = word >> 24 & 0xf, key = word >> 16 & 0xff, code = word & 0xffff;
    switch (word >> 28) {
    case SET_KEY:
        if (format == 1 && code - CONSUMER < 0x1000) {
            if (code - CONSUMER >= 16)
                return 0;
            word += FORMAT_1[code - CONSUMER] - (code - CONSUMER);
            code = word & 0xffff;
        }
        return layer < LAYERS && key < KEYS && is_code(code) ? word : 0;
    case RESET_LAYER:
        return layer < LAYERS && key + code == 0 ? word : 0;
    case RESET_ALL:
        return word == (uint32_t)RESET_ALL << 28 ? word : 0;
    default:
        return 0;
    }
}
#endif
