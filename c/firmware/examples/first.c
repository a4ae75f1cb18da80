// SPDX-License-Identifier: MIT OR Apache-2.0
/* Presses key 0, sets it to the letter b as a host does, cuts the power, and presses it again. */
#include "ram_flash.h" /* on a chip the driver of its flash stands here */
#include "wuzhikar.h"

#include <stdio.h>

static wz_keyboard keyboard;

static void press(void) {
    uint8_t report[WZ_REPORT_BYTES];
    for (int is_down = 1; is_down >= 0; is_down--) {
        const uint16_t rows[6] = {(uint16_t)is_down}; /* bit 0 of row 0 is key 0 */
        for (int millisecond = 0; millisecond < 5; millisecond++)
            wz_keyboard_scan(&keyboard, rows);
        if (wz_keyboard_poll(&keyboard, report) > 0)
            printf("endpoint 1: %02x %02x %02x %02x\n", report[0], report[1], report[2], report[3]);
    }
}

int main(void) {
    /* SET_REPORT of feature report 3: layer 0, key 0, code 0005h. */
    const uint8_t setup[8] = {0x21, 9, 3, 3, 0, 0, 6, 0}, data[6] = {3, 1, 0, 0, 0x05, 0x00};
    wz_keyboard_start(&keyboard, &ram_flash, NULL, 0);
    press();
    printf("endpoint 0: %s\n", wz_status_name(wz_keyboard_write(&keyboard, setup, data, sizeof data)));
    /* The power is lost; the flash stays as it is. */
    memset(&keyboard, 0, sizeof keyboard);
    wz_keyboard_start(&keyboard, &ram_flash, NULL, 0);
    press();
    return 0;
}
