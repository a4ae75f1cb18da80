// SPDX-License-Identifier: MIT OR Apache-2.0
/* A host as a stock Linux is one to this keyboard. It enumerates the device, gives key 0 another letter, cuts the power when
 * it was told that this is stored and again inside the flash operation of a command, and presses the key. What it gets goes
 * to standard output. */
#include <stdio.h>

#include "bench.h"

/* The most bytes of a packet of endpoint 1. */
#define PACKET 16

/* The eight bytes of a SETUP packet, of interface 0. */
#define SETUP(type, request, value, length) \
    (const uint8_t[8]) { type, request, (value) & 255, (value) >> 8, 0, 0, (length) & 255, (length) >> 8 }

/* Prints an answer: its bytes where it has some. An empty packet, and a packet that was taken, are an ack. */
static void show(const char *what, const uint8_t *bytes, int answer) {
    printf("%s ", what);
    if (answer == BENCH_NAK)
        printf("nak");
    else if (answer == BENCH_REFUSED)
        printf("refused");
    else if (answer < 0)
        printf("stall %d", BENCH_REASON(answer));
    else if (answer == 0)
        printf("ack");
    for (int i = 0; i < answer; i++)
        printf("%02x", bytes[i]);
    printf("\n");
}

/* A transfer that reads: packets until one is short of `packet` bytes or all is there, then the status stage. */
static void fetch(bench *device, const char *what, const uint8_t *setup, int packet) {
    uint8_t bytes[256];
    int wanted = setup[6] | setup[7] << 8, got = 0, answer;
    bench_setup(device, setup, 8);
    do {
        answer = bench_in(device, bytes + got, sizeof bytes - got);
        got += answer < 0 ? 0 : answer;
    } while (answer == packet && got < wanted);
    if (answer >= 0)
        answer = bench_out(device, NULL, 0);
    show(what, bytes, answer < 0 ? answer : got);
}

/* A transfer that writes, up to its status stage: the data, where there is some, in one packet. */
static int send(bench *device, const uint8_t *setup, const uint8_t *data) {
    bench_setup(device, setup, 8);
    return setup[6] ? bench_out(device, data, setup[6]) : BENCH_ACK;
}

static void status(bench *device, const char *what) {
    uint8_t packet[8];
    show(what, packet, bench_in(device, packet, sizeof packet));
}

/* A transfer without data. */
static void request(bench *device, const char *what, const uint8_t *setup) {
    send(device, setup, NULL);
    status(device, what);
}

/* Key 0 is pressed, and its report is polled: a packet that is not full is the last one. */
static void press_key_0(bench *device, const char *what) {
    uint8_t report[64 + PACKET];
    int got = 0, answer;
    for (int i = 0; i < 5; i++)
        bench_scan(device, (const uint16_t[6]) { 1 }, 6);
    do {
        answer = bench_poll(device, report + got, sizeof report - got);
        got += answer < 0 ? 0 : answer;
    } while (answer == PACKET);
    show(what, report, answer < 0 ? answer : got);
}

static void enumerate(bench *device) {
    /* Until it knows better, Linux takes a packet to have up to 64 bytes: the first one, of 8, ends this read. */
    fetch(device, "head", SETUP(0x80, 6, 0x0100, 64), 64);
    bench_reset(device);
    request(device, "SET_ADDRESS", SETUP(0x00, 5, 9, 0));
    fetch(device, "device", SETUP(0x80, 6, 0x0100, 18), 8);
    for (int i = 0; i < 3; i++)
        fetch(device, "qualifier", SETUP(0x80, 6, 0x0600, 10), 8);
    fetch(device, "head", SETUP(0x80, 6, 0x0200, 9), 8);
    fetch(device, "configuration", SETUP(0x80, 6, 0x0200, 34), 8);
    fetch(device, "languages", SETUP(0x80, 6, 0x0300, 255), 8);
    request(device, "SET_CONFIGURATION", SETUP(0x00, 9, 1, 0));
    request(device, "SET_IDLE", SETUP(0x21, 10, 0, 0));
    fetch(device, "report", SETUP(0x81, 6, 0x2200, 99), 8);
    send(device, SETUP(0x21, 9, 0x0201, 2), (const uint8_t[]) { 1, 1 });
    status(device, "SET_REPORT of the LEDs");
    printf("LEDs %02x\n", bench_leds(device));
}

int main(void) {
    bench *device = bench_new(2, PACKET);
    if (device == NULL)
        return 1;
    enumerate(device);
    press_key_0(device, "key 0");

    /* Key 0 of layer 0 becomes usage 05h, the letter b. The status stage waits for the flash. */
    show("command", NULL, send(device, SETUP(0x21, 9, 0x0303, 6), (const uint8_t[]) { 3, 1, 0, 0, 5, 0 }));
    status(device, "status");
    int steps = 1, work;
    while ((work = bench_work(device)) == BENCH_WORKING)
        steps++;
    printf("%s after %d steps\n", work == BENCH_SETTLED ? "settled" : "not settled", steps);
    status(device, "status");

    /* The b is bit 1 of the report's third byte: the bytes begin with usage 04h, behind the Report ID and the modifiers. */
    bench_cut(device);
    request(device, "SET_CONFIGURATION", SETUP(0x00, 9, 1, 0));
    press_key_0(device, "key 0 after the cut");

    /* It becomes a c, and the power goes inside the operation, of which half the bits took effect: the b is still there. */
    show("command", NULL, send(device, SETUP(0x21, 9, 0x0303, 6), (const uint8_t[]) { 3, 1, 0, 0, 6, 0 }));
    bench_cut_in_work(device, (const uint8_t[]) { 0x0f }, 1);
    request(device, "SET_CONFIGURATION", SETUP(0x00, 9, 1, 0));
    press_key_0(device, "key 0 after the cut in a program");
    bench_free(device);
    return 0;
}
