// SPDX-License-Identifier: MIT OR Apache-2.0
/* Several threads at once: each with handles of its own, and all with handles that one of them closes under the others. */
#include "check.h"

#include <pthread.h>
#include <stdatomic.h>

#define THREADS 8
#define SHARED 4

/* Two devices with a report each, and what is pressed in it. */
static const struct device {
    const uint8_t *text;
    size_t size;
    uint8_t report[8];
    size_t length, count;
    uint32_t on[3];
} DEVICES[2] = {{KEYBOARD, sizeof KEYBOARD, {2, 0, 4, 5}, 7, 3, {0x00070004, 0x00070005, 0x000700e1}},
                {WITH_IDS, sizeof WITH_IDS, {2, 1, 0xff}, 3, 2, {0x00010030, 0x00010031}}};

/* Handles that every thread reads by, closes and opens anew: number n is of device n & 1. */
static _Atomic uint64_t shared[SHARED];
static atomic_size_t closed_reads, reads, closings;
static int rounds;

static hidr_descriptor parsed(const struct device *device) {
    hidr_descriptor descriptor;
    ANSWERS(HIDR_OK, hidr_parse(device->text, device->size, &descriptor, NULL));
    return descriptor;
}

/* A reading gives what the report says by this device, or finds the handle closed: nothing between, and no other device. */
static void read_by(hidr_descriptor descriptor, const struct device *device, int may_be_closed) {
    uint32_t on[4];
    size_t count;
    hidr_status status = hidr_pressed(descriptor, device->report, device->length, on, 4, &count);
    if (may_be_closed && status == HIDR_CLOSED) {
        closed_reads++;
        return;
    }
    ANSWERS(HIDR_OK, status);
    CHECK(count == device->count && memcmp(on, device->on, count * sizeof on[0]) == 0);
    reads++;
}

/* Closes a shared handle, if no other thread was first, and puts a new one in its place. */
static void exchange(size_t number) {
    hidr_status status = hidr_close(atomic_load(&shared[number]));
    if (status == HIDR_CLOSED)
        return;
    ANSWERS(HIDR_OK, status);
    closings++;
    atomic_store(&shared[number], parsed(&DEVICES[number & 1]));
}

/* A text in pieces, with a handle of this thread. */
static void parse_in_pieces(const struct device *device, unsigned seed) {
    hidr_parser parser;
    hidr_descriptor descriptor;
    ANSWERS(HIDR_OK, hidr_parser_open(&parser));
    for (size_t at = 0; at < device->size;) {
        size_t piece = 1 + (seed + at) % 9;
        piece = piece > device->size - at ? device->size - at : piece;
        ANSWERS(HIDR_OK, hidr_parser_feed(parser, device->text + at, piece, NULL));
        at += piece;
    }
    ANSWERS(HIDR_OK, hidr_parser_finish(parser, &descriptor, NULL));
    read_by(descriptor, device, 0);
    ANSWERS(HIDR_OK, hidr_close(descriptor));
    ANSWERS(HIDR_CLOSED, hidr_close(descriptor));
}

static void *work(void *number) {
    unsigned seed = (unsigned)(size_t)number;
    for (int round = 0; round < rounds; round++) {
        size_t place;
        seed = seed * 1103515245 + 12345;
        place = seed >> 8 & (SHARED - 1);
        read_by(atomic_load(&shared[place]), &DEVICES[place & 1], 1);
        if (seed >> 16 & 1)
            exchange(seed >> 17 & (SHARED - 1));
        if (round % 8 == 0)
            parse_in_pieces(&DEVICES[seed >> 19 & 1], seed >> 20);
    }
    return NULL;
}

int main(int argc, char **argv) {
    pthread_t threads[THREADS];
    rounds = argc > 1 ? atoi(argv[1]) : 20000;
    for (size_t number = 0; number < SHARED; number++)
        atomic_store(&shared[number], parsed(&DEVICES[number & 1]));
    for (size_t number = 0; number < THREADS; number++)
        CHECK(pthread_create(&threads[number], NULL, work, (void *)number) == 0);
    for (size_t number = 0; number < THREADS; number++)
        CHECK(pthread_join(threads[number], NULL) == 0);
    CHECK(free_handles() == HIDR_HANDLES - SHARED);
    for (size_t number = 0; number < SHARED; number++)
        ANSWERS(HIDR_OK, hidr_close(atomic_load(&shared[number])));
    CHECK(free_handles() == HIDR_HANDLES);
    CHECK(reads > 0 && closings > 0);
    printf("%d threads: each reading is right, or its handle was closed\n", THREADS);
    fprintf(stderr, "%zu readings, %zu handles closed, %zu readings by a closed one\n", (size_t)reads, (size_t)closings,
            (size_t)closed_reads);
    return 0;
}
