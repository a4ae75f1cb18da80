// SPDX-License-Identifier: MIT OR Apache-2.0
/* The whole device in C, on a controller that is played: a host enumerates it, remaps a key, is refused while it is locked, and
 * finds the key where it was behind a cut. */
#include "played_bus.h"

void wz_panic(void) { abort(); }

static played_flash flash;
static played_bus bus;
static wz_device device;
static const uint16_t MAKER[] = {'M', 0xfc, 'h', 'l', 'e'}, PRODUCT[] = {'S', 'p', 'l', 'i', 't'};
static wz_identity identity = {{MAKER, 5}, {PRODUCT, 5}, {NULL, 0}, 0x1209, 1, 0x0123, 200, 16, 1, 1, 0};

static int start(void) {
    wz_flash table = table_of(&flash);
    wz_driver driver = driver_of(&bus);
    memset(&bus, 0, sizeof bus);
    return wz_device_start(&device, &table, NULL, 0, &identity, &driver);
}

/* The first usage of the reports that the host reads while key 0 is held, or -1. */
static int typed(int is_down) {
    uint16_t rows[6] = {(uint16_t)is_down};
    uint8_t got[512];
    size_t count = 0;
    for (int scan = 0; scan < 60; scan++) {
        NEEDS(wz_device_scan(&device, rows) == WZ_OK && wz_device_serve(&device) == WZ_OK);
        if (bus.is_full) {
            memcpy(got + count, bus.report, bus.report_length);
            count += bus.report_length;
            bus.is_full = 0;
            bus.taken++;
        }
        NEEDS(wz_device_serve(&device) == WZ_OK);
    }
    /* The report of 23 bytes comes in a packet of 16 and one of 7; behind a configuration the first comes twice. */
    NEEDS(count % 23 == 0);
    for (size_t bit = 0; count > 0 && bit < 168; bit++)
        if (got[count - 23 + 2 + bit / 8] >> bit % 8 & 1)
            return (int)bit + 4;
    return -1;
}

static void is_enumerated(void) {
    static const uint8_t GET_DEVICE[8] = {0x80, 6, 0, 1, 0, 0, 18, 0}, SET_ADDRESS[8] = {0, 5, 9}, CONFIGURE[8] = {0, 9, 1};
    static const uint8_t GET_STRING[8] = {0x80, 6, 1, 3, 9, 4, 255, 0};
    uint8_t bytes[256];
    bus.met.reset = 1;
    go_round(&device);
    NEEDS(transfer(&bus, &device, GET_DEVICE, bytes) == 18 && bytes[8] == 0x09 && bytes[9] == 0x12 && bytes[13] == 1);
    NEEDS(transfer(&bus, &device, SET_ADDRESS, bytes) == 0 && bus.address == 9);
    NEEDS(transfer(&bus, &device, GET_STRING, bytes) == 12 && bytes[2] == 'M' && bytes[4] == 0xfc);
    NEEDS(wz_device_endpoint_1(&device) == WZ_ENDPOINT_OFF && transfer(&bus, &device, CONFIGURE, bytes) == 0);
    NEEDS(bus.endpoint == WZ_ENDPOINT_READY && wz_device_endpoint_1(&device) == WZ_ENDPOINT_READY);
}

static int set_key(uint8_t usage) {
    static const uint8_t SET_REPORT[8] = {0x21, 9, 3, 3, 0, 0, 6, 0};
    uint8_t data[6] = {3, 1, 0, 0, usage, 0};
    return transfer(&bus, &device, SET_REPORT, data);
}

static void wakes_its_host(void) {
    static const uint8_t ENABLE[8] = {0, 3, 1};
    uint16_t rows[6] = {2};
    NEEDS(transfer(&bus, &device, ENABLE, NULL) == 0 && wz_device_suspended(&device) == WZ_OK && wz_device_wakes(&device) == 0);
    for (int scan = 0; scan < 6; scan++)
        NEEDS(wz_device_scan(&device, rows) == WZ_OK && wz_device_serve(&device) == WZ_OK);
    NEEDS(wz_device_wakes(&device) == 1 && wz_device_wakes(&device) == 0 && wz_device_resumed(&device) == WZ_OK);
}

int main(void) {
    static const uint8_t SET_LEDS[8] = {0x21, 9, 1, 2, 0, 0, 2, 0};
    uint8_t leds[2] = {1, 2};
    blank(&flash);
    identity.packet_size = 24;
    NEEDS(start() == WZ_RANGE && wz_device_serve(&device) == WZ_NOT_STARTED);
    identity.packet_size = 16;
    NEEDS(start() == WZ_OK && wz_device_is_first_start(&device) == 1);
    is_enumerated();
    NEEDS(typed(1) == 4 && typed(0) == -1 && set_key(5) == 0 && typed(1) == 5 && typed(0) == -1);
    NEEDS(wz_device_set_locked(&device, 1) == WZ_OK && set_key(6) == -1 && wz_device_code(&device, 0, 0) == 5);
    NEEDS(wz_device_set_locked(&device, 0) == WZ_OK && transfer(&bus, &device, SET_LEDS, leds) == 0 && wz_device_leds(&device) == 2);
    wakes_its_host();
    flash.cut = 0;
    NEEDS(set_key(6) == -1 && flash.is_off);
    memset(&device, 0, sizeof device);
    power(&flash);
    NEEDS(start() == WZ_OK && wz_device_is_first_start(&device) == 0);
    is_enumerated();
    NEEDS(typed(1) == 5);
    puts("a device enumerates, types, is remapped and locked, wakes its host, and keeps its keys");
    return 0;
}
