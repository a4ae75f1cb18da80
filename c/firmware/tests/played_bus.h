// SPDX-License-Identifier: MIT OR Apache-2.0
/* A controller in RAM with one buffer for each endpoint, and a host that makes whole transfers on it. */
#ifndef PLAYED_BUS_H
#define PLAYED_BUS_H

#include "played_flash.h"

typedef struct played_bus {
    wz_waiting met;
    int input, output, address, endpoint, is_full;
    uint8_t packet[8], report[64];
    size_t length, report_length, taken;
} played_bus;

/* Whether something has come that the device was not told: then nothing takes effect. */
static inline int is_late(played_bus *bus) { return bus->met.has_setup || bus->met.reset; }

static inline void waiting(void *context, wz_waiting *met) {
    played_bus *bus = context;
    *met = bus->met;
    memset(&bus->met, 0, sizeof bus->met);
}

static inline void input_0(void *context, int answer, const uint8_t *packet, size_t length) {
    played_bus *bus = context;
    NEEDS(length <= 8);
    if (is_late(bus))
        return;
    bus->input = answer;
    bus->length = length;
    if (length > 0)
        memcpy(bus->packet, packet, length);
}

static inline void output_0(void *context, int answer) {
    played_bus *bus = context;
    if (!is_late(bus))
        bus->output = answer;
}

static inline void set_address(void *context, uint8_t address) { ((played_bus *)context)->address = address; }

static inline int has_two(void *context) {
    (void)context;
    return 0;
}

static inline size_t taken_1(void *context) {
    played_bus *bus = context;
    size_t taken = bus->taken;
    bus->taken = 0;
    return taken;
}

static inline void begin_anew(void *context, int endpoint) {
    played_bus *bus = context;
    bus->endpoint = endpoint;
    bus->is_full = 0;
    bus->taken = 0;
}

static inline void give_up(void *context) { ((played_bus *)context)->is_full = 0; }

static inline void host_began(void *context) { (void)context; }

static inline void forget(void *context) { begin_anew(context, WZ_ENDPOINT_OFF); }

static inline void input_1(void *context, const uint8_t *packet, size_t length) {
    played_bus *bus = context;
    NEEDS(!bus->is_full && length <= WZ_REPORT_BYTES);
    memcpy(bus->report, packet, length);
    bus->report_length = length;
    bus->is_full = 1;
}

static inline wz_driver driver_of(played_bus *bus) {
    wz_driver driver = {bus,     waiting,    input_0, output_0,   set_address, has_two,
                        taken_1, begin_anew, give_up, host_began, forget,      input_1};
    return driver;
}

/* A round of the firmware's loop. */
static inline void go_round(wz_device *device) {
    NEEDS(wz_device_serve(device) == WZ_OK && wz_device_work(device) >= 0 && wz_device_serve(device) == WZ_OK);
}

/* The host sends the data of a write, a packet of 8 bytes where the last one was taken; 0 where it is stalled. */
static inline int host_sends(played_bus *bus, wz_device *device, const uint8_t *data, int length) {
    for (int sent = 0, rounds = 0; sent < length && rounds < 999; rounds++) {
        go_round(device);
        if (bus->output == WZ_OUTPUT_STALL)
            return 0;
        if (bus->output != WZ_OUTPUT_TAKE)
            continue;
        bus->met.out_length = (uint8_t)(length - sent > 8 ? 8 : length - sent);
        memcpy(bus->met.out, data + sent, bus->met.out_length);
        bus->met.has_out = 1;
        bus->output = WZ_OUTPUT_NAK;
        sent += bus->met.out_length;
    }
    return 1;
}

/* Makes a control transfer: the bytes that were read, 0 for a write, or -1 where it is stalled. */
static inline int transfer(played_bus *bus, wz_device *device, const uint8_t *setup, uint8_t *data) {
    int reads = setup[0] & 0x80, length = setup[6] | setup[7] << 8, count = 0;
    memcpy(bus->met.setup, setup, 8);
    bus->met.has_setup = 1;
    bus->input = bus->output = 0;
    if (!reads && !host_sends(bus, device, data, length))
        return -1;
    for (int rounds = 0; rounds < 5000; rounds++) {
        go_round(device);
        if (bus->input == WZ_INPUT_STALL)
            return -1;
        if (bus->input != WZ_INPUT_PACKET)
            continue;
        if (reads)
            memcpy(data + count, bus->packet, bus->length);
        count += (int)bus->length;
        bus->input = WZ_INPUT_NAK;
        bus->met.taken = 1;
        if (reads && bus->length == 8 && count < length)
            continue;
        go_round(device);
        bus->met.has_out = reads && bus->output == WZ_OUTPUT_TAKE;
        go_round(device);
        return count;
    }
    return -2;
}

#endif
