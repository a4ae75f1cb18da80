// SPDX-License-Identifier: MIT OR Apache-2.0
/* The task of examples/stacks/qmk_task.c in a loop that is played: it types, and stores what the interrupt brought. */
#include "../examples/stacks/qmk_task.c"
#include "played_flash.h"

void wz_panic(void) { abort(); }

static played_flash flash;
static uint32_t now;
static uint16_t held;
static uint8_t leds, reported;

uint8_t matrix_scan(void) { return 1; }
matrix_row_t matrix_get_row(uint8_t row) { return row == 0 ? held : 0; }
uint32_t timer_read32(void) { return now; }
void led_set(uint8_t lit) { leds = lit; }
int endpoint_1_is_free(void) { return 1; }
void endpoint_1_send(const uint8_t *report, uint8_t count) { reported = count == 23 ? report[2] : 0xff; }

/* Six milliseconds, with some turns of the loop in each. */
static uint8_t typed(uint16_t keys) {
    held = keys;
    for (int turn = 0; turn < 24; turn++) {
        now += turn % 4 == 0;
        keyboard_task();
    }
    return reported;
}

int main(void) {
    static const uint8_t SET_REPORT[8] = {0x21, 9, 3, 3, 0, 0, 6, 0}, B[6] = {3, 1, 0, 0, 5, 0};
    static const uint8_t C[6] = {3, 1, 0, 0, 6, 0}; /* put off by the pace */
    static const uint8_t SET_LEDS[8] = {0x21, 9, 1, 2, 0, 0, 2, 0}, CAPS[2] = {1, 2};
    wz_flash table;
    blank(&flash);
    table = table_of(&flash);
    NEEDS(wz_keyboard_start(&keyboard, &table, NULL, 0) == WZ_OK && typed(1) == 1 && typed(0) == 0);
    NEEDS(keyboard_write(SET_REPORT, B, 6) == 0 && keyboard_write(SET_LEDS, CAPS, 2) == 1);
    NEEDS(typed(1) == 2 && keyboard_write(SET_LEDS, CAPS, 2) == 0 && typed(0) == 0 && leds == 2);
    memset(&keyboard, 0, sizeof keyboard);
    NEEDS(wz_keyboard_start(&keyboard, &table, NULL, 0) == WZ_OK && typed(1) == 2);
    memset(&keyboard, 0, sizeof keyboard);
    NEEDS(wz_keyboard_start(&keyboard, &table, NULL, 20) == WZ_OK && keyboard_write(SET_REPORT, C, 6) == 0);
    for (int turn = 0; turn < 4; turn++)
        typed(0);
    NEEDS(typed(1) == 4);
    puts("a keyboard_task types, and stores what the interrupt brought");
    return 0;
}
