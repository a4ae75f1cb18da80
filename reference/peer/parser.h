// SPDX-License-Identifier: MIT OR Apache-2.0
/* A parser of HID report descriptors (HID 1.11, section 6.2.2), written by hand in C: what docs/formats.md says that the host
 * reads, with its limits and its faults. */
#ifndef PARSER_H
#define PARSER_H
#include <stdbool.h>
#include <stddef.h>
#include <stdint.h>

enum parse_fault {
    NO_FAULT,
    TRUNCATED,
    DELIMITER,
    POP_EMPTY,
    PUSH_DEEP,
    BAD_REPORT_ID,
    SIZE_TOO_LARGE,
    COUNT_TOO_LARGE,
    END_WITHOUT_COLLECTION,
    COLLECTION_DEEP,
    UNPAIRED_USAGE,
    USAGE_INVERTED,
    LOGICAL_INVERTED,
    TOO_MANY_FIELDS,
    MIXED_IDS,
    COLLECTION_OPEN,
    TOO_LONG,
    NO_MEMORY
};

enum report_kind { INPUT, OUTPUT, FEATURE, KINDS };

enum { NO_FIELD = 0xffff };

/* Usages from the first to the last, the page in the high half of each, and how many the field has up to here, modulo 2^32. */
struct usage_range {
    uint32_t first, last, count;
};

/* A field of a report. Its ranges end before `end`, and begin where those of the field before it end. */
struct field {
    uint64_t bit; /* from the byte after the ID byte */
    int64_t min, max;
    uint32_t end;
    uint16_t count; /* places */
    uint16_t next;  /* the next field of the same report, or NO_FIELD */
    uint8_t kind, id, size;
    bool array;
};

/* The reports of an ID: how many bits each kind has, and its first field. */
struct id_reports {
    uint64_t bits[KINDS];
    uint16_t first[KINDS];
};

struct descriptor {
    struct field *fields;
    struct usage_range *ranges;
    struct id_reports *reports;
    uint32_t field_count, range_count, id_count;
};

/* Parses a text. Where it has a fault the first one is answered, with the offset of its item, and nothing is kept. */
enum parse_fault parse(const uint8_t *text, size_t length, struct descriptor *descriptor, size_t *offset);

void drop_descriptor(struct descriptor *descriptor);
#endif
