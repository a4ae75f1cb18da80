// SPDX-License-Identifier: MIT OR Apache-2.0
/* What a keyboard_task takes of QMK, restated, and of a driver of endpoint 1. */
#ifndef MATRIX_H
#define MATRIX_H

#include <stdint.h>

#define MATRIX_ROWS 6
typedef uint16_t matrix_row_t;

uint8_t matrix_scan(void);
matrix_row_t matrix_get_row(uint8_t row);
uint32_t timer_read32(void);
void led_set(uint8_t leds);

int endpoint_1_is_free(void);
void endpoint_1_send(const uint8_t *report, uint8_t length);

#endif
