// SPDX-License-Identifier: MIT OR Apache-2.0
/* The keyboard of keyboard.h. Its parts are headers, so that a compiler sees the whole at once. */
#include "endpoint.h"
#include "keys.h"

void kb_bus_reset(void)
{
    kb.stage = REST;
    kb.boot = false;
    kb.leds = 0;
    kb.idle[0] = 125; /* 500 ms (HID 1.11, section 7.2.4) */
    kb.idle[1] = 0;
    forget_sent();
}

void kb_start(void)
{
    for (volatile uint32_t *p = (void *)&kb; p < (uint32_t *)(&kb + 1); p++)
        *p = 0;
    mount();
    kb_bus_reset();
}

unsigned kb_leds(void) { return kb.leds; }

unsigned kb_entry(unsigned layer, unsigned key) { return kb.keymap[layer * KEYS + key]; }
