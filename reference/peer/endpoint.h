// SPDX-License-Identifier: MIT OR Apache-2.0
/* Endpoint 0: SETUP packets and the packets of a transfer (USB 2.0, sections 8.5.3 and 9.3; HID 1.11, section 7; the order of
 * the checks is in docs/formats.md). Part of keyboard.c. */
#ifndef ENDPOINT_H
#define ENDPOINT_H
#include "descriptors.h"
#include "log.h"
#include "reports.h"

static int stall(unsigned why)
{
    kb.stage = STALLED;
    kb.why = why;
    return KB_STALL - (int)why;
}

/* A SETUP packet is acknowledged also where its request is refused: the stall comes with the next packet. */
static void refuse(unsigned why) { stall(why); }

/* Begins to send the first wLength of n bytes. Where these are fewer and fill whole packets an empty one says the end (USB
 * 2.0, section 5.5.3). */
static void send(const uint8_t *data, unsigned n, unsigned length)
{
    kb.stage = length ? SENDING : STATUS;
    kb.data = data;
    kb.left = n < length ? n : length;
    kb.empty_ends = n < length && n % KB_PACKET == 0;
}

/* GET_DESCRIPTOR to the device (USB 2.0, section 9.4.3). */
static void get_descriptor(unsigned value, unsigned length)
{
    if (value == 0x0100)
        send(DEVICE, sizeof DEVICE, length);
    else if (value == 0x0200)
        send(CONFIGURATION, sizeof CONFIGURATION, length);
    else
        refuse(UNKNOWN_DESCRIPTOR);
}

/* GET_DESCRIPTOR to the interface (HID 1.11, section 7.1.1). */
static void get_class_descriptor(unsigned value, unsigned length)
{
    if (value == 0x2100)
        send(HID_DESCRIPTOR, HID_LENGTH, length);
    else if (value == 0x2200)
        send(REPORT_DESCRIPTOR, sizeof REPORT_DESCRIPTOR, length);
    else
        refuse(UNKNOWN_DESCRIPTOR);
}

/* The feature report: the selected entry. */
static unsigned read_entry(uint8_t *out)
{
    unsigned code = kb_entry(kb.selected_layer, kb.selected_key);
    out[0] = 3;
    out[1] = 0;
    out[2] = kb.selected_layer;
    out[3] = kb.selected_key;
    out[4] = code;
    out[5] = code >> 8;
    return 6;
}

/* GET_REPORT (HID 1.11, section 7.2.1). What is read is that of this moment. */
static void get_report(unsigned value, unsigned length)
{
    uint8_t *copy = kb.copy.bytes;
    unsigned n;
    if (value == (kb.boot ? 0x0100 : 0x0101)) {
        n = length_1();
        kb.copy = kb.wanted1;
    } else if (value == 0x0102 && !kb.boot) {
        n = LENGTH_2;
        kb.copy = kb.wanted2;
    } else if (value == 0x0201 && !kb.boot) {
        n = 2;
        copy[0] = 1;
        copy[1] = kb.leds;
    } else if (value == 0x0200 && kb.boot) {
        n = 1;
        copy[0] = kb.leds;
    } else if (value == 0x0303) {
        n = read_entry(copy);
    } else {
        refuse(UNKNOWN_REPORT);
        return;
    }
    send(copy, n, length);
}

/* Sends one byte. */
static void send_byte(unsigned byte, unsigned length)
{
    kb.copy.bytes[0] = byte;
    send(kb.copy.bytes, 1, length);
}

/* GET_IDLE (HID 1.11, section 7.2.3). Report ID 0 is answered as 1. */
static void get_idle(unsigned value, unsigned length)
{
    if (value > 2)
        refuse(UNKNOWN_REPORT);
    else
        send_byte(kb.idle[value == 2], length);
}

/* SET_REPORT (HID 1.11, section 7.2.2). */
static void set_report(unsigned value, unsigned length)
{
    kb.has_id = true;
    kb.need = length;
    if (value == 0x0303) {
        kb.stage = TAKING_FEATURE;
        if (length != 6)
            refuse(WRONG_LENGTH);
    } else if (value == (kb.boot ? 0x0200 : 0x0201)) {
        kb.stage = TAKING_LEDS;
        kb.has_id = !kb.boot;
        if (length != 1u + kb.has_id)
            refuse(WRONG_LENGTH);
    } else {
        refuse(UNKNOWN_REPORT);
    }
}

/* SET_IDLE (HID 1.11, section 7.2.4), which acts at its status stage. */
static void set_idle(unsigned value, unsigned length)
{
    unsigned id = value & 0xff;
    kb.stage = STATUS;
    kb.effect = SET_IDLE;
    kb.effect_id = id;
    kb.effect_value = value >> 8;
    if (id > 2)
        refuse(UNKNOWN_REPORT);
    else if (length)
        refuse(WRONG_LENGTH);
}

/* SET_PROTOCOL (HID 1.11, section 7.2.6), which acts at its status stage. */
static void set_protocol(unsigned value, unsigned length)
{
    kb.stage = STATUS;
    kb.effect = SET_PROTOCOL;
    kb.effect_value = value;
    if (value > 1)
        refuse(BAD_PROTOCOL);
    else if (length)
        refuse(WRONG_LENGTH);
}

/* A request by bmRequestType and bRequest. One to the device does not look at wIndex, which names interface 0 in the others. */
static void request(unsigned pair, bool wrong, unsigned value, unsigned length)
{
    switch (pair) {
    case 0x8006:
        get_descriptor(value, length);
        break;
    case 0x8106:
        wrong ? refuse(WRONG_INTERFACE) : get_class_descriptor(value, length);
        break;
    case 0xa101:
        wrong ? refuse(WRONG_INTERFACE) : get_report(value, length);
        break;
    case 0xa102:
        wrong ? refuse(WRONG_INTERFACE) : get_idle(value, length);
        break;
    case 0xa103: /* GET_PROTOCOL (HID 1.11, section 7.2.5) */
        wrong ? refuse(WRONG_INTERFACE) : send_byte(!kb.boot, length);
        break;
    case 0x2109:
        wrong ? refuse(WRONG_INTERFACE) : set_report(value, length);
        break;
    case 0x210a:
        wrong ? refuse(WRONG_INTERFACE) : set_idle(value, length);
        break;
    case 0x210b:
        wrong ? refuse(WRONG_INTERFACE) : set_protocol(value, length);
        break;
    default:
        refuse(UNKNOWN_REQUEST);
    }
}

void kb_setup(const uint8_t p[8])
{
    kb.effect = NOTHING;
    request(p[0] << 8 | p[1], p[4] | p[5], p[2] | p[3] << 8, p[6] | p[7] << 8);
}

/* The checks of an operation and its place, as far as it uses one. */
static unsigned misplaced(unsigned operation, unsigned layer, unsigned key)
{
    if (operation > RESET_ALL)
        return BAD_OPERATION;
    if (operation != RESET_ALL && layer >= LAYERS)
        return BAD_LAYER;
    return operation <= SET_KEY && key >= KEYS ? BAD_KEY : 0;
}

/* The command of these numbers as a record's word. */
static uint32_t word_of(unsigned operation, unsigned layer, unsigned key, unsigned code)
{
    uint32_t word = (uint32_t)operation << 28;
    if (operation != RESET_ALL)
        word |= layer << 24;
    if (operation == SET_KEY)
        word |= key << 16 | code;
    return word;
}

/* The feature report: operation 0 selects an entry, the others are commands. */
static int feature(const uint8_t *p)
{
    unsigned operation = p[1], layer = p[2], key = p[3], code = p[4] | p[5] << 8;
    if (kb.command)
        return KB_NAK;
    unsigned why = misplaced(operation, layer, key);
    if (why)
        return stall(why);
    if (operation == 0) {
        kb.selected_layer = layer;
        kb.selected_key = key;
        kb.stage = STATUS;
        return KB_ACK;
    }
    if (operation == SET_KEY && !is_code(code))
        return stall(BAD_CODE);
    if (kb.unsound)
        return stall(UNSOUND);
    uint32_t word = word_of(operation, layer, key, code);
    kb.stage = STATUS;
    if (!changes(word))
        return KB_ACK;
    if (!has_room() && kb.active != NO_PAGE && kb.sequence == SEQUENCE_MAX)
        return stall(WORN);
    kb.command = word;
    kb.stage = WAITING;
    return KB_ACK;
}

/* The data packet of SET_REPORT. */
static int take_report(const uint8_t *p, unsigned n)
{
    if (n != kb.need)
        return stall(n < kb.need ? SHORT_DATA : LONG_DATA);
    if (kb.stage == TAKING_FEATURE)
        return p[0] == 3 ? feature(p) : stall(UNKNOWN_REPORT);
    if (kb.has_id && p[0] != 1)
        return stall(UNKNOWN_REPORT);
    kb.leds = p[n - 1] & 0x1f;
    kb.stage = STATUS;
    return KB_ACK;
}

int kb_out(const uint8_t *packet, unsigned n)
{
    switch (kb.stage) {
    case STALLED:
        return stall(kb.why);
    case SENDING: /* the host's empty packet ends a read (USB 2.0, section 8.5.3.1), also an early one */
        if (n)
            break;
        kb.stage = REST;
        return KB_ACK;
    case TAKING_LEDS:
    case TAKING_FEATURE:
        return take_report(packet, n);
    }
    return stall(WRONG_STAGE);
}

/* What a request without data was for, at its status stage. Report ID 0 of SET_IDLE stands for all. */
static void take_effect(void)
{
    if (kb.effect == SET_IDLE) {
        if (kb.effect_id != 2)
            kb.idle[0] = kb.effect_value;
        if (kb.effect_id != 1)
            kb.idle[1] = kb.effect_value;
    } else if (kb.effect == SET_PROTOCOL) {
        kb.boot = kb.effect_value == 0;
        forget_sent();
    }
}

int kb_in(uint8_t packet[KB_PACKET])
{
    switch (kb.stage) {
    case STALLED:
        return stall(kb.why);
    case WAITING:
        return KB_NAK;
    case SENDING: {
        unsigned n = kb.left < KB_PACKET ? kb.left : KB_PACKET;
        if (n == 0) {
            if (!kb.empty_ends)
                break;
            kb.empty_ends = false;
            return 0;
        }
        if (n == KB_PACKET)
            *(struct eight *)packet = *(const struct eight *)kb.data;
        else
            for (unsigned i = 0; i < n; i++)
                ((volatile uint8_t *)packet)[i] = kb.data[i];
        kb.data += n;
        kb.left -= n;
        return n;
    }
    case STATUS:
        kb.stage = REST;
        take_effect();
        return 0;
    }
    return stall(WRONG_STAGE);
}
#endif
