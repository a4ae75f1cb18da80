// SPDX-License-Identifier: MIT OR Apache-2.0
/* What the tests have in common. */
#ifndef CHECK_H
#define CHECK_H

#include "../hid_reader.h"

#include <stdio.h>
#include <stdlib.h>
#include <string.h>
#include <sys/mman.h>
#include <unistd.h>

/* Ends the program where something is not as it should be. */
#define CHECK(condition)                                                                          \
    do {                                                                                          \
        if (!(condition)) {                                                                       \
            fprintf(stderr, "%s:%d: not so: %s\n", __FILE__, __LINE__, #condition);               \
            exit(1);                                                                              \
        }                                                                                         \
    } while (0)

/* Ends the program where a call answers another status. */
#define ANSWERS(status, call) answers(status, call, #call, __FILE__, __LINE__)

static inline void answers(hidr_status wanted, hidr_status told, const char *call, const char *file, int line) {
    if (told != wanted) {
        fprintf(stderr, "%s:%d: %s answers %s (%d), not %s\n", file, line, call, hidr_status_name(told), (int)told,
                hidr_status_name(wanted));
        exit(1);
    }
}

/* Outputs that were not written keep this byte. */
#define BLANK 0xa5
#define FILL(value) memset(&(value), BLANK, sizeof(value))
#define UNTOUCHED(value) CHECK(is_blank(&(value), sizeof(value)))

static inline int is_blank(const void *start, size_t length) {
    const unsigned char *bytes = start;
    while (length > 0 && bytes[length - 1] == BLANK)
        length--;
    return length == 0;
}

/* Room for `length` bytes at whose end the memory ends: the next byte can be neither read nor written. It stays. */
static inline unsigned char *room_at_the_end(size_t length) {
    size_t page = (size_t)sysconf(_SC_PAGESIZE), whole = (length + page - 1) / page * page;
    unsigned char *start = mmap(NULL, whole + page, PROT_READ | PROT_WRITE, MAP_PRIVATE | MAP_ANONYMOUS, -1, 0);
    CHECK(start != MAP_FAILED && mprotect(start + whole, page, PROT_NONE) == 0);
    return start + whole - length;
}

/* How many handles can be opened now, at most one more than there are. They are closed again. */
static inline size_t free_handles(void) {
    hidr_parser parsers[HIDR_HANDLES + 1];
    size_t count = 0;
    while (count <= HIDR_HANDLES && hidr_parser_open(&parsers[count]) == HIDR_OK)
        count++;
    for (size_t number = 0; number < count; number++)
        ANSWERS(HIDR_OK, hidr_close(parsers[number]));
    return count;
}

/* A keyboard: eight modifiers and five LEDs, a bit each, and six places for keys. */
static const uint8_t KEYBOARD[] = {
    0x05, 0x01, 0x09, 0x06, 0xa1, 0x01, 0x05, 0x07, 0x19, 0xe0, 0x29, 0xe7, 0x15, 0x00, 0x25, 0x01, 0x75,
    0x01, 0x95, 0x08, 0x81, 0x02, 0x95, 0x05, 0x05, 0x08, 0x19, 0x01, 0x29, 0x05, 0x91, 0x02, 0x95, 0x01,
    0x75, 0x03, 0x91, 0x01, 0x95, 0x06, 0x75, 0x08, 0x26, 0xff, 0x00, 0x05, 0x07, 0x19, 0x00, 0x2a, 0xff,
    0x00, 0x81, 0x00, 0xc0};

/* The media keys of two reports with IDs: four bits of report 1, two bytes with a sign of report 2. */
static const uint8_t WITH_IDS[] = {0x05, 0x0c, 0x09, 0x01, 0xa1, 0x01, 0x85, 0x01, 0x15, 0x00, 0x25, 0x01, 0x75, 0x01, 0x95,
                                   0x04, 0x09, 0xb5, 0x09, 0xb6, 0x09, 0xcd, 0x09, 0xe2, 0x81, 0x02, 0x75, 0x04, 0x95, 0x01,
                                   0x81, 0x01, 0x85, 0x02, 0x15, 0x81, 0x25, 0x7f, 0x75, 0x08, 0x95, 0x02, 0x05, 0x01, 0x09,
                                   0x30, 0x09, 0x31, 0x81, 0x02, 0xc0};

#endif
