// SPDX-License-Identifier: MIT OR Apache-2.0
/* A keyboard_task in the shape of QMK's: matrix_scan fills the rows, and the reports go to the driver of endpoint 1.
 *
 * QMK's USB is ChibiOS', which calls behind the status packet, in an interrupt: so a command is kept there, and stored by the
 * task. Then the status packet says that the keyboard has the command, and not that it is stored; a host that must know reads
 * the entry back. LUFA calls before it, and may call wz_keyboard_write itself. */
#include "keyboard.h"

#include "matrix.h"

wz_keyboard keyboard;

/* The newest write that the bus brought. The interrupt sets has_write last, and the task clears it last. */
static uint8_t setup[8], data[8];
static volatile uint8_t length, has_write;

/* Called in the interrupt, with the data of a SET_REPORT, SET_IDLE or SET_PROTOCOL. Other than 0: there is no room yet. */
int keyboard_write(const uint8_t *packet, const uint8_t *from, uint8_t count) {
    if (has_write || count > sizeof data)
        return 1;
    for (uint8_t at = 0; at < 8; at++)
        setup[at] = packet[at];
    for (uint8_t at = 0; at < count; at++)
        data[at] = from[at];
    length = count;
    has_write = 1;
    return 0;
}

void keyboard_task(void) {
    static uint32_t last;
    uint16_t rows[6] = {0};
    uint8_t report[WZ_REPORT_BYTES];
    if (timer_read32() != last) {
        last = timer_read32();
        matrix_scan();
        for (uint8_t row = 0; row < MATRIX_ROWS && row < 6; row++)
            rows[row] = (uint16_t)matrix_get_row(row);
        wz_keyboard_scan(&keyboard, rows);
    }
    if (has_write && wz_keyboard_write(&keyboard, setup, data, length) != WZ_LATER) {
        led_set((uint8_t)wz_keyboard_leds(&keyboard));
        has_write = 0;
    }
    if (endpoint_1_is_free()) {
        int count = wz_keyboard_poll(&keyboard, report);
        if (count > 0)
            endpoint_1_send(report, (uint8_t)count);
    }
    wz_keyboard_work(&keyboard);
}
