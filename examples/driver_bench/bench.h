// SPDX-License-Identifier: MIT OR Apache-2.0
/* A keyboard with its flash in memory and the standard requests in front of it, for the test of a host driver: one call for
 * each thing that happens to a device. A host enumerates it as it does a stock one.
 *
 * A call that is lent NULL, or a wrong length, answers BENCH_REFUSED, and the device has not seen it. A device is used by
 * one thread at a time. Nothing waits, and there is no clock: the flash works when bench_work is called. */
#ifndef BENCH_H
#define BENCH_H

#include <stddef.h>
#include <stdint.h>

#ifdef __cplusplus
extern "C" {
#endif

typedef struct bench bench;

/* Answers. A number from 0 on is a length, or says that the packet was acknowledged. */
enum {
    BENCH_ACK = 0,
    BENCH_NAK = -1,
    BENCH_REFUSED = -2,
    BENCH_OFF = -3,    /* endpoint 1 is not there: the device is not configured */
    BENCH_STALL = -100 /* less the reason's number, 1 to 16 (docs/simulator.md), which a real bus does not show */
};

/* The reason's number of an answer that is a stall, and 0 of any other, and of a halted endpoint 1. */
#define BENCH_REASON(answer) ((answer) < BENCH_STALL ? BENCH_STALL - (answer) : 0)

/* What a step of the flash work was. */
enum { BENCH_IDLE = 0, BENCH_WORKING = 1, BENCH_SETTLED = 2, BENCH_FAILED = 3 };

/* A device on 2 to 8 erased pages of 4,096 bytes, or on the bytes of so many, as bench_image gives them. Packets of endpoint
 * 1 have up to `packet` bytes: 8, 16, 32 or 64. NULL for any other number, or where there is no memory. */
bench *bench_new(size_t pages, size_t packet);
bench *bench_on_image(const uint8_t *image, size_t length, size_t packet);
void bench_free(bench *device);

/* Endpoint 0. SETUP takes 8 bytes: BENCH_ACK, always. OUT takes 0 to 8: BENCH_ACK, BENCH_NAK or a stall.
 * IN takes room for 8 bytes or more: the packet's length, which may be 0, BENCH_NAK or a stall. */
int bench_setup(bench *device, const uint8_t *packet, size_t length);
int bench_out(bench *device, const uint8_t *packet, size_t length);
int bench_in(bench *device, uint8_t *buffer, size_t room);

/* A whole control transfer, with the 8 bytes of its SETUP packet, and data with room for wLength bytes: what is written, or
 * room for what is read. Where a packet is told to wait, the flash works. The length that was read or written, or a stall. */
int bench_control(bench *device, const uint8_t *setup, size_t length, uint8_t *data, size_t room);

/* Endpoint 1, with room for 64 bytes or more: a packet's length, BENCH_NAK, BENCH_STALL while it is halted, or BENCH_OFF.
 * A report of keys has 23 bytes and comes in as many packets as it takes; a packet that is not full is its last one. */
int bench_poll(bench *device, uint8_t *buffer, size_t room);

/* A millisecond with these 6 rows of the matrix: bit c of row r is key 16 r + c. Five equal ones decide. BENCH_ACK. */
int bench_scan(bench *device, const uint16_t *rows, size_t count);

/* A step of the flash work, at most one program or erase: BENCH_IDLE to BENCH_FAILED. */
int bench_work(bench *device);

/* The same, whose operation is torn by the mask, 0 to 4,096 bytes: a bit that is set takes effect, byte i goes by byte
 * i modulo its length, and without bytes nothing takes effect. The operation answers a fault. */
int bench_tear(bench *device, const uint8_t *mask, size_t length);

/* The LEDs: Num Lock, Caps Lock, Scroll Lock, Compose, Kana in bits 0 to 4. */
int bench_leds(const bench *device);

/* A bus reset, and a loss of power, after which the device starts on the flash as it is: between two steps of the flash
 * work, or inside the operation of one, which is torn by the mask as in bench_tear. BENCH_ACK. */
int bench_reset(bench *device);
int bench_cut(bench *device);
int bench_cut_in_work(bench *device, const uint8_t *mask, size_t length);

/* The bytes of the flash, into a buffer with room for all of them: how many there are. */
int bench_image(const bench *device, uint8_t *buffer, size_t room);

#ifdef __cplusplus
}
#endif

#endif
