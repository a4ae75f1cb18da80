/* Random scans, the same on every machine. */
#ifndef DRAW_H
#define DRAW_H
#include <stdint.h>

uint32_t draw(void);

/* Begins anew: no sample differs from these debounced keys. */
void draw_from(const uint16_t down[6]);

/* The next scan, in which keys bounce, but none differs from its debounced state for the fifth time in a row. */
void draw_scan(uint16_t rows[6]);
#endif
