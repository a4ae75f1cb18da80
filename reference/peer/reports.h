// SPDX-License-Identifier: MIT OR Apache-2.0
/* Input reports: their bytes, the queue, and what a poll sends (docs/formats.md, "Reports"). Part of keyboard.c. */
#ifndef REPORTS_H
#define REPORTS_H
#include "keymap.h"

enum { BOOT_PLACES = 6, CONSUMER_PLACES = 4 };

static unsigned length_1(void) { return kb.boot ? LENGTH_BOOT : LENGTH_1; }

static bool same(const union report *a, const union report *b)
{
    const uint32_t *x = a->words, *y = b->words;
    return ((x[0] ^ y[0]) | (x[1] ^ y[1]) | (x[2] ^ y[2]) | (x[3] ^ y[3]) | (x[4] ^ y[4]) | (x[5] ^ y[5])) == 0;
}

static void clear(union report *a, uint32_t first)
{
    a->words[0] = first;
    a->words[1] = a->words[2] = 0;
    __asm__ volatile("");
    a->words[3] = a->words[4] = a->words[5] = 0;
}

/* The boot report (HID 1.11, appendix B.1) of the keys in a report of ID 1. */
static void boot_form(union report *to, const uint8_t bits[LENGTH_1])
{
    uint8_t *out = to->bytes;
    unsigned n = 0;
    clear(to, 0);
    out[0] = bits[1];
    for (unsigned i = 2; i < LENGTH_1; i++)
        for (unsigned byte = bits[i], usage = 4 + 8 * (i - 2); byte; byte >>= 1, usage++)
            if (byte & 1) {
                if (n == BOOT_PLACES) {
                    to->words[0] = (to->words[0] & 0xffff) | 0x01010000;
                    to->words[1] = 0x01010101;
                    return;
                }
                out[2 + n++] = usage;
            }
}

/* Puts a usage among the n least ones so far, which rise, and gives how many there are then. */
static unsigned insert(uint16_t least[CONSUMER_PLACES], unsigned n, unsigned usage)
{
    unsigned i = n;
    while (i > 0 && least[i - 1] > usage)
        i--;
    if ((i > 0 && least[i - 1] == usage) || i == CONSUMER_PLACES)
        return n;
    if (n < CONSUMER_PLACES)
        n++;
    for (unsigned j = n - 1; j > i; j--)
        least[j] = least[j - 1];
    least[i] = usage;
    return n;
}

/* The bytes of the keys that are down, in the form of the protocol. */
static void want(union report *first, union report *second)
{
    union report made;
    clear(&made, 1);
    uint8_t *bits = made.bytes;
    uint16_t least[CONSUMER_PLACES];
    for (unsigned i = 0; i < CONSUMER_PLACES; i++)
        ((volatile uint16_t *)least)[i] = 0;
    unsigned n = 0;
    for (unsigned w = 0; w < WORDS; w++)
        for (uint32_t keys = kb.down[w]; keys; keys &= keys - 1) {
            unsigned code = kb.code[32 * w + __builtin_ctz(keys)];
            if (is_key(code))
                bits[2 + (code - 4) / 8] |= 1 << (code - 4) % 8;
            else if (is_modifier(code))
                bits[1] |= 1 << (code - MODIFIER);
            else if (is_consumer(code))
                n = insert(least, n, code - CONSUMER);
        }
    if (kb.boot)
        boot_form(first, bits);
    else
        *first = made;
    clear(second, 2 | least[0] << 8 | (uint32_t)least[1] << 24);
    second->words[1] = least[1] >> 8 | least[2] << 8 | (uint32_t)least[3] << 24;
    second->words[2] = least[3] >> 8;
}

static void compare_sent(void)
{
    bool first = !same(&kb.wanted1, &kb.sent1);
    bool second = !kb.boot && !same(&kb.wanted2, &kb.sent2);
    kb.changed = first | second << 1;
}

/* Puts a report into the queue, which drops its oldest one where it is full. */
static void push(const union report *report)
{
    union report *place = &kb.queue[(kb.front + kb.waiting) % QUEUE];
    if (kb.waiting == QUEUE)
        kb.front = (kb.front + 1) % QUEUE;
    else
        kb.waiting++;
    *place = *report;
}

/* What is wanted in a slot from now on, which waits where it is another than before. */
static __attribute__((noinline)) void turn_to(union report *wanted, const union report *now)
{
    if (same(wanted, now))
        return;
    *wanted = *now;
    push(now);
    compare_sent();
}

/* Makes the wanted bytes anew after a change of the keys, and puts what they changed into the queue. */
static void want_anew(void)
{
    union report first, second;
    want(&first, &second);
    turn_to(&kb.wanted1, &first);
    if (!kb.boot)
        turn_to(&kb.wanted2, &second);
}

/* The host knows nothing: at a start, a bus reset, and where it set the protocol. */
static void forget_sent(void)
{
    clear(&kb.sent1, !kb.boot);
    clear(&kb.sent2, 2);
    kb.age[0] = kb.age[1] = 0;
    kb.last = 0;
    kb.waiting = 0;
    want(&kb.wanted1, &kb.wanted2);
    compare_sent();
}

/* Sends a report as that of a slot. */
static unsigned sent(unsigned slot, uint8_t *out, const union report *report)
{
    unsigned length = slot ? LENGTH_2 : length_1();
    *(struct whole *)out = *(const struct whole *)report;
    *(slot ? &kb.sent2 : &kb.sent1) = *report;
    kb.age[slot] = 0;
    kb.last = 1 << slot;
    return length;
}

/* The slots that are due by their idle value (HID 1.11, section 7.2.4), as bits. */
static unsigned elapsed(void)
{
    unsigned due = kb.idle[0] != 0 && kb.age[0] >= 4u * kb.idle[0];
    if (!kb.boot && kb.idle[1] != 0 && kb.age[1] >= 4u * kb.idle[1])
        due |= 2;
    return due;
}

unsigned kb_poll(uint8_t report[KB_REPORT])
{
    if (kb.waiting) {
        const union report *front = &kb.queue[kb.front];
        kb.front = (kb.front + 1) % QUEUE;
        kb.waiting--;
        unsigned length = sent(!kb.boot && front->bytes[0] == 2, report, front);
        compare_sent();
        return length;
    }
    unsigned due = kb.changed;
    if (!due) {
        due = elapsed();
        if (!due)
            return 0;
    }
    unsigned slot = due == 3 ? kb.last == 1 : due - 1; /* of two the one that was not sent last */
    kb.changed &= ~(1 << slot);
    return sent(slot, report, slot ? &kb.wanted2 : &kb.wanted1);
}
#endif
