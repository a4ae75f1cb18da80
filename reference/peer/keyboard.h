// SPDX-License-Identifier: MIT OR Apache-2.0
/* The keyboard of docs/formats.md, written by hand in C: 96 keys, four layers, three reports, the keymap in NOR flash.
 *
 * One device, no heap. Calls come one after another, from a main loop or from interrupts of one priority. Nothing waits: a
 * call of kb_work makes at most one flash operation. kb_start comes before any other call. */
#ifndef KEYBOARD_H
#define KEYBOARD_H
#include <stdint.h>

/* What a packet is answered. A stall is KB_STALL less its reason, 1 to 16. */
enum { KB_ACK = 0, KB_NAK = -1, KB_STALL = -100 };

/* What a step of the flash work came to. */
enum { KB_IDLE, KB_WORKING, KB_SETTLED, KB_FAILED };

enum { KB_PACKET = 8, KB_REPORT = 23 }; /* the longest packet of endpoint 0, the longest input report, in bytes */

void kb_start(void);                           /* power came, or came back: takes up the keymap that the flash holds */
void kb_restart(void);                         /* the same, on a keyboard that runs */
void kb_scan(const uint16_t rows[6]);          /* each millisecond: bit k % 16 of row k / 16 is key k, closed */
void kb_setup(const uint8_t packet[8]);        /* a SETUP packet, which is acknowledged in every case */
int kb_out(const uint8_t *packet, unsigned n); /* an OUT packet of n bytes, at most 8: KB_ACK, KB_NAK or a stall */
int kb_in(uint8_t packet[KB_PACKET]);          /* an IN token: the packet's length, KB_NAK or a stall */
unsigned kb_poll(uint8_t report[KB_REPORT]);   /* an IN token on endpoint 1: the report's length, or 0 for NAK */
int kb_work(void);                             /* a step of the flash work */
void kb_bus_reset(void);
unsigned kb_leds(void);                        /* bit 0 Num Lock, 1 Caps Lock, 2 Scroll Lock, 3 Compose, 4 Kana */
unsigned kb_entry(unsigned layer, unsigned key); /* the code there; layer below 4, key below 96 */
#endif
