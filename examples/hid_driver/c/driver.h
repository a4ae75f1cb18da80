// SPDX-License-Identifier: MIT OR Apache-2.0
/* What the drivers of this folder share: the reader of a descriptor in a file of hex digits, the values of a report, names. */
#ifndef DRIVER_H
#define DRIVER_H

#include "hid_reader.h"
#include "hid_usages.h"

#include <inttypes.h>
#include <stdio.h>
#include <stdlib.h>

/* Ends the program where a call is refused. */
static inline void needs(hidr_status status, const char *what) {
    if (status != HIDR_OK) {
        fprintf(stderr, "%s: %s\n", what, hidr_status_name(status));
        exit(1);
    }
}

/* Ends the program where there is no memory. */
static inline void *got(void *memory) {
    needs(memory != NULL ? HIDR_OK : HIDR_NO_MEMORY, "the memory");
    return memory;
}

/* The reader of a descriptor in a file of hex digits, as `xxd -p` writes it. */
static inline hidr_reader reader_of(const char *path) {
    static uint8_t text[4097]; /* a byte more than a reader takes */
    size_t length = 0;
    unsigned byte;
    hidr_reader reader;
    hidr_error error = {0};
    hidr_status status;
    FILE *file = path ? fopen(path, "r") : NULL;
    if (file == NULL) {
        fprintf(stderr, "a file with a report descriptor in hex is missing\n");
        exit(2);
    }
    while (length < sizeof text && fscanf(file, "%2x", &byte) == 1)
        text[length++] = (uint8_t)byte;
    fclose(file);
    status = hidr_reader_open(text, length, &reader, &error);
    if (status == HIDR_FAULT)
        fprintf(stderr, "%s at byte %" PRIu64 "\n", hidr_fault_name(error.fault), error.offset);
    needs(status, "the descriptor");
    return reader;
}

/* The values of a report, in memory that grows with what a report has; `all` is to be freed in the end. */
struct values {
    hidr_value *all;
    size_t count, room;
};

/* Reads an input report: 1. One that is refused is dropped, and the driver keeps its state and reads the next one: 0. */
static inline int read_or_drop(hidr_reader reader, const uint8_t *report, size_t length, struct values *values) {
    /* With room for none the call says how many there are. */
    hidr_status status = hidr_read(reader, HIDR_INPUT, report, length, NULL, 0, &values->count, NULL);
    if (status != HIDR_OK) {
        fprintf(stderr, "a report of %zu bytes: %s\n", length, hidr_status_name(status));
        printf("a report is dropped\n");
        return 0;
    }
    if (values->count > values->room) {
        values->all = got(realloc(values->all, values->count * sizeof *values->all));
        values->room = values->count;
    }
    needs(hidr_read(reader, HIDR_INPUT, report, length, values->all, values->room, &values->count, NULL), "the report");
    return 1;
}

/* What the item of a value's field declares. */
static inline hidr_detail detail_of(hidr_reader reader, const hidr_value *value) {
    hidr_detail detail;
    needs(hidr_detail_at(reader, value->item, &detail), "the item");
    return detail;
}

/* A value in its unit, with the unit's name. */
static inline void print_physical(hidr_reader reader, const hidr_value *value, uint32_t digits) {
    char decimal[64], unit[32];
    size_t length;
    needs(hidr_decimal(reader, value->field, value->raw, digits, decimal, sizeof decimal, &length), "the value");
    needs(hidr_unit_name(reader, value->item, unit, sizeof unit, &length), "the unit");
    printf("%s %ss", decimal, length > 0 ? unit : "unit");
}

/* The buttons that are down. */
static inline void print_buttons(const struct values *values) {
    const char *between = "";
    printf(", buttons [");
    for (size_t at = 0; at < values->count; at++)
        if (values->all[at].usage >> 16 == HIDU_BUTTON_PAGE && values->all[at].raw != 0) {
            printf("%s%" PRIu32, between, values->all[at].usage & 0xffff);
            between = ", ";
        }
    printf("]");
}

#endif
