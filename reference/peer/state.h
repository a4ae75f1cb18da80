// SPDX-License-Identifier: MIT OR Apache-2.0
/* All that the keyboard keeps in RAM, and the numbers of docs/formats.md. Part of keyboard.c. */
#ifndef STATE_H
#define STATE_H
#include "flash.h"
#include "keyboard.h"
#include <stdbool.h>

enum {
    KEYS = 96,
    LAYERS = 4,
    PLACES = KEYS * LAYERS, /* entries of the keymap */
    WORDS = KEYS / 32,      /* a set of keys, as words */
    SLOTS = PAGE_WORDS / 2,
    NO_PAGE = 0xff,
    QUEUE = 8,
    AGE_MAX = 4 * 255, /* milliseconds: no idle value asks for more */
};

/* Lengths of reports in bytes, with their Report ID where they have one. The first shares its slot with the boot report. */
enum { LENGTH_BOOT = 8, LENGTH_1 = KB_REPORT, LENGTH_2 = 9 };

/* Bytes at any address. */
struct __attribute__((packed)) eight { uint32_t words[2]; };
struct __attribute__((packed)) whole { uint32_t words[5]; uint16_t half; uint8_t byte; };

enum stage { REST, SENDING, TAKING_LEDS, TAKING_FEATURE, STATUS, WAITING, STALLED };

/* What the status stage of a request without data does. */
enum effect { NOTHING, SET_IDLE, SET_PROTOCOL };

/* Why a transfer is stalled; 0 is no reason. */
enum why {
    UNKNOWN_REQUEST = 1,
    WRONG_INTERFACE,
    UNKNOWN_DESCRIPTOR,
    UNKNOWN_REPORT,
    WRONG_LENGTH,
    BAD_PROTOCOL,
    BAD_OPERATION,
    BAD_LAYER,
    BAD_KEY,
    BAD_CODE,
    UNSOUND,
    WORN,
    FLASH_FAULT,
    SHORT_DATA,
    LONG_DATA,
    WRONG_STAGE
};

/* A report, and zeros behind it: whole words are copied and compared. Its length is that of its slot and protocol. */
union report {
    uint8_t bytes[24];
    uint32_t words[6];
};

static struct {
    /* Debounce: which keys are down, and in three planes how many of the latest samples say otherwise, 0 to 4. */
    uint32_t down[WORDS], count0[WORDS], count1[WORDS], count2[WORDS];
    uint16_t code[KEYS];       /* of keys that are down, fixed at the press */
    uint8_t momentary[LAYERS]; /* how many held keys hold this layer */
    uint16_t keymap[PLACES];

    /* Reports of the protocol in force. Slot 0 is the boot report or the one of ID 1, slot 1 the one of ID 2. */
    union report wanted1, sent1, wanted2, sent2;
    uint8_t changed; /* bit i: what is wanted in slot i differs from what was sent last */
    uint8_t last;    /* the bit of the slot that was sent last, 0 for none */
    uint8_t idle[2]; /* units of 4 ms, 0 for never */
    uint16_t age[2]; /* milliseconds since it was sent, at most AGE_MAX */
    union report queue[QUEUE]; /* what scans changed, with its bytes after the scan */
    uint8_t front, waiting;
    bool boot;
    uint8_t leds;
    uint8_t selected_layer, selected_key;

    /* Endpoint 0. */
    uint8_t stage, why, effect, effect_id, effect_value;
    uint8_t left;           /* bytes still to be sent */
    bool empty_ends;        /* an empty packet follows them */
    bool has_id;            /* the LED report that is taken begins with its Report ID */
    uint8_t need;           /* wLength of what is taken */
    const uint8_t *data;    /* what is sent: a descriptor, or `copy` */
    union report copy;      /* as it was at its SETUP packet */

    /* The log. */
    uint32_t sequence;
    uint32_t command; /* the word that is being stored, 0 for none */
    uint16_t tail;    /* the slot that the next record goes into */
    uint16_t copied, place;
    uint8_t active, format, target;
    bool turning, unsound;
} kb;
#endif
