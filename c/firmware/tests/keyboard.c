// SPDX-License-Identifier: MIT OR Apache-2.0
/* A keyboard in C: it types, is remapped by whole transfers and by packets, is locked, and keeps its keys through torn writes. */
#include "played_flash.h"

void wz_panic(void) { abort(); }

static played_flash flash;
static wz_keyboard keyboard, other;
static wz_layout layout;
static const uint8_t SET_REPORT[8] = {0x21, 9, 3, 3, 0, 0, 6, 0};

static int start(wz_keyboard *of, const wz_layout *codes, uint16_t pace) {
    wz_flash table = table_of(&flash);
    return wz_keyboard_start(of, &table, codes, pace);
}

/* The first usage that the keyboard reports while these keys are held, behind a release of all. */
static int typed(wz_keyboard *of, uint16_t keys) {
    uint16_t rows[6] = {0};
    uint8_t report[WZ_REPORT_BYTES];
    int usage = 0;
    for (int scan = 0; scan < 5; scan++)
        NEEDS(wz_keyboard_scan(of, rows) == 0);
    while (wz_keyboard_poll(of, report) >= 0) {
    }
    rows[0] = keys;
    for (int scan = 0; scan < 5; scan++)
        NEEDS(wz_keyboard_scan(of, rows) == 0);
    for (int length; (length = wz_keyboard_poll(of, report)) >= 0;)
        for (int bit = 0; length == 23 && bit < 168; bit++)
            if (report[2 + bit / 8] >> bit % 8 & 1)
                usage = 4 + bit;
    return usage;
}

static int set_key(wz_keyboard *of, uint8_t layer, uint8_t key, uint16_t code) {
    const uint8_t data[6] = {3, 1, layer, key, (uint8_t)code, (uint8_t)(code >> 8)};
    return wz_keyboard_write(of, SET_REPORT, data, sizeof data);
}

static void types_and_layers(void) {
    uint8_t layer = 9, key = 9;
    blank(&flash);
    layout.codes[0][0] = WZ_CODE_KEY(0x04);
    layout.codes[0][1] = WZ_CODE_LAYER(1);
    layout.codes[1][0] = WZ_CODE_KEY(0x3a);
    layout.codes[2][3] = 2;
    NEEDS(start(&keyboard, &layout, 0) == WZ_CODE);
    NEEDS(wz_layout_check(&layout, &layer, &key) == WZ_CODE && layer == 2 && key == 3);
    NEEDS(wz_keyboard_leds(&keyboard) == WZ_NOT_STARTED);
    layout.codes[2][3] = WZ_CODE_TRANSPARENT;
    NEEDS(wz_layout_check(&layout, &layer, &key) == WZ_OK);
    NEEDS(start(&keyboard, &layout, 0) == WZ_OK && wz_keyboard_is_first_start(&keyboard) == 1);
    NEEDS(typed(&keyboard, 1) == 0x04);
    NEEDS(typed(&keyboard, 2) == 0 && typed(&keyboard, 3) == 0x04);
    NEEDS(wz_keyboard_code(&keyboard, 1, 0) == 0x3a && wz_keyboard_code(&keyboard, 4, 0) == WZ_RANGE);
}

/* Two keyboards on one flash, each with its own layout: a reset of all keys gives back that of the keyboard. */
static void layouts_are_their_own(void) {
    const uint8_t reset[6] = {3, 3, 0, 0, 0, 0};
    NEEDS(start(&keyboard, &layout, 0) == WZ_OK && start(&other, NULL, 0) == WZ_OK);
    NEEDS(wz_keyboard_code(&keyboard, 1, 0) == 0x3a && wz_keyboard_code(&other, 1, 0) == WZ_CODE_TRANSPARENT);
    NEEDS(wz_keyboard_write(&keyboard, SET_REPORT, reset, 6) == WZ_OK);
    NEEDS(wz_keyboard_code(&keyboard, 1, 0) == 0x3a);
}

static void remaps_and_locks(void) {
    uint8_t packet[8], report[WZ_READ_BYTES];
    const uint8_t by_packets[6] = {3, 1, 0, 0, 6, 0}, get_report[8] = {0xa1, 1, 3, 3, 0, 0, 6, 0};
    blank(&flash);
    NEEDS(start(&keyboard, NULL, 0) == WZ_OK && set_key(&keyboard, 0, 0, 5) == WZ_OK && typed(&keyboard, 1) == 5);
    NEEDS(wz_keyboard_is_first_start(&keyboard) == 0);
    NEEDS(wz_keyboard_setup(&keyboard, SET_REPORT) == WZ_OK && wz_keyboard_out(&keyboard, by_packets, 6) == WZ_OK);
    NEEDS(wz_keyboard_in(&keyboard, packet) == WZ_NAK);
    while (wz_keyboard_work(&keyboard) == 1) {
    }
    NEEDS(wz_keyboard_in(&keyboard, packet) == 0 && typed(&keyboard, 1) == 6);
    NEEDS(wz_keyboard_set_locked(&keyboard, 1) == WZ_OK && set_key(&keyboard, 0, 0, 7) == WZ_STALL);
    NEEDS(wz_keyboard_set_locked(&keyboard, 0) == WZ_OK && typed(&keyboard, 1) == 6);
    NEEDS(set_key(&keyboard, 0, 0, 2) == WZ_STALL && set_key(&keyboard, 0, 96, 5) == WZ_STALL);
    NEEDS(wz_keyboard_read(&keyboard, get_report, report, 5) == WZ_ROOM);
    NEEDS(wz_keyboard_read(&keyboard, get_report, report, sizeof report) == 6 && report[0] == 3);
    NEEDS(start(&keyboard, NULL, 4001) == WZ_RANGE && start(&keyboard, NULL, 10) == WZ_OK);
    NEEDS(set_key(&keyboard, 0, 0, 7) == WZ_LATER && typed(&keyboard, 1) == 6 && set_key(&keyboard, 0, 0, 7) == WZ_OK);
}

/* Random keys, the power cut inside an operation of some: what was answered Ok stays, the other key is the old or the new one. */
static long lives(long count) {
    uint16_t held[8];
    uint32_t chance = 1;
    long cuts = 0;
    blank(&flash);
    for (int key = 0; key < 8; key++)
        held[key] = (uint16_t)(4 + key);
    for (long life = 0; life < count; life++) {
        memset(&keyboard, 0, sizeof keyboard);
        power(&flash);
        NEEDS(start(&keyboard, NULL, 0) == WZ_OK);
        for (int key = 0; key < 8; key++)
            NEEDS(wz_keyboard_code(&keyboard, 0, (uint8_t)key) == held[key]);
        flash.cut = (long)((chance = chance * 1664525u + 1013904223u) >> 24);
        while (!flash.is_off) {
            uint8_t key = (chance = chance * 1664525u + 1013904223u) >> 29;
            uint16_t code = (uint16_t)(4 + (chance >> 8) % 100);
            int done = set_key(&keyboard, 0, key, code);
            NEEDS(done == WZ_OK || (flash.is_off && done == WZ_STALL));
            if (done == WZ_OK) {
                held[key] = code;
            } else {
                memset(&keyboard, 0, sizeof keyboard);
                power(&flash);
                NEEDS(start(&keyboard, NULL, 0) == WZ_OK);
                int now = wz_keyboard_code(&keyboard, 0, key);
                NEEDS(now == held[key] || now == code);
                held[key] = (uint16_t)now;
                cuts++;
                break;
            }
        }
    }
    return cuts;
}

static void lends_descriptors(void) {
    const uint8_t *bytes = NULL;
    NEEDS(wz_descriptor(0x22, &bytes) == 99 && bytes[0] == 5 && wz_descriptor(1, &bytes) == 18 && bytes[1] == 1);
    NEEDS(wz_descriptor(2, &bytes) == 34 && wz_descriptor(0x21, &bytes) == 9 && wz_descriptor(3, &bytes) == WZ_ABSENT);
}

int main(int count, char **words) {
    types_and_layers();
    layouts_are_their_own();
    remaps_and_locks();
    lends_descriptors();
    NEEDS(lives(count > 1 ? atol(words[1]) : 300) > 100);
    puts("a keyboard types, is remapped and locked, and keeps its keys through torn writes");
    return 0;
}
