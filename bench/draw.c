#include "draw.h"
#include <string.h>

static uint32_t state = 1;
static uint16_t debounced[6], other[4][6]; /* the last four samples, as differences */

/* Marsaglia's xorshift. */
uint32_t draw(void)
{
    state ^= state << 13;
    state ^= state >> 17;
    state ^= state << 5;
    return state;
}

void draw_from(const uint16_t down[6])
{
    memcpy(debounced, down, sizeof debounced);
    memset(other, 0, sizeof other);
}

void draw_scan(uint16_t rows[6])
{
    static unsigned oldest;
    for (unsigned i = 0; i < 6; i++) {
        uint16_t four = other[0][i] & other[1][i] & other[2][i] & other[3][i];
        /* Half of the bits, or three of four, so that runs of four are often there. */
        uint16_t differs = (draw() >> 8 | (draw() >> 16 & draw())) & ~four;
        other[oldest][i] = differs;
        rows[i] = debounced[i] ^ differs;
    }
    oldest = (oldest + 1) % 4;
}
