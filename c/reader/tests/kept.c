// SPDX-License-Identifier: MIT OR Apache-2.0
/* The calls of a reader: each refusal by its own status, after which nothing was written; what is given where there is less
 * room; and each request for memory refused in turn. */
#include "check.h"
#include "refusing.h"

#include <stddef.h>

/* A hat of four bits with Null State in degrees and a string, four bits of padding, an array of two keys, and Buffered Bytes of
 * twelve bits; four fields whose extents, units and values are none. */
static const uint8_t TEXT[] = {
    0x05, 0x01, 0x09, 0x05, 0xa1, 0x01, 0x09, 0x39, 0x15, 0x01, 0x25, 0x08, 0x35, 0x00, 0x46, 0x3b, 0x01, 0x65, 0x14, 0x75, 0x04,
    0x95, 0x01, 0x79, 0x07, 0x81, 0x42, /* at 25: the hat */
    0x81, 0x03, 0x05, 0x07, 0x19, 0x00, 0x29, 0x65, 0x15, 0x00, 0x25, 0x65, 0x75, 0x08, 0x95, 0x02, 0x81, 0x00,
    0x06, 0x00, 0xff, 0x09, 0x01, 0x25, 0x0f, 0x75, 0x04, 0x95, 0x03, 0x82, 0x02, 0x01, /* buffered */
    0x09, 0x02, 0x15, 0x05, 0x25, 0x05, 0x65, 0x05, 0x95, 0x01, 0x81, 0x02,             /* equal extents, a reserved system */
    0x09, 0x03, 0x25, 0x04, 0x65, 0x0f, 0x81, 0x02,                                     /* inverted ones, the vendor's system */
    0x09, 0x04, 0x15, 0x00, 0x25, 0x01, 0x65, 0x10, 0x81, 0x02,                         /* exponents without a system */
    0x09, 0x05, 0x15, 0x00, 0x67, 0x11, 0x00, 0x00, 0x10, 0x91, 0x02,                   /* an output report, a reserved digit */
    0xc0};
static const uint8_t REPORT[7] = {0xf3, 4, 0, 0x21, 0x53, 0x41, 9}; /* east, A, 123h, 5, 4, 1, and a byte more */
/* Arrays of one bit: in report 2 a 0 names none, in report 3 each value names a usage. */
static const uint8_t CONSUMER[] = {0x05, 0x0c, 0x09, 0x01, 0xa1, 0x01, 0x85, 0x02, 0x09, 0xe9, 0x15, 0x01, 0x25, 0x01, 0x75, 0x01, 0x95,
                                   0x01, 0x81, 0x00, 0x85, 0x03, 0x09, 0xe9, 0x09, 0xea, 0x15, 0x00, 0x25, 0x01, 0x81, 0x00, 0xc0};

/* All that a call can write. */
struct outputs {
    uint64_t handle;
    hidr_error error;
    hidr_detail detail;
    hidr_collection collection;
    hidr_report reports[2];
    hidr_range ranges[2];
    hidr_value values[2];
    hidr_fraction fraction;
    uint32_t numbers[2];
    size_t count, rest;
    int64_t raw;
    int8_t exponents[6];
    char text[8];
    uint8_t bytes[8];
};

static const hidr_setting EAST = {.control = 0x00010039, .value = 3};

typedef hidr_status with_reader(uint64_t r, struct outputs *to);
static hidr_status f0(uint64_t r, struct outputs *to) { return hidr_detail_count(r, &to->count); }
static hidr_status f1(uint64_t r, struct outputs *to) { return hidr_detail_at(r, 0, &to->detail); }
static hidr_status f2(uint64_t r, struct outputs *to) { return hidr_detail_of(r, 0, &to->count); }
static hidr_status f3(uint64_t r, struct outputs *to) { return hidr_collection_count(r, &to->count); }
static hidr_status f4(uint64_t r, struct outputs *to) { return hidr_collection_at(r, 0, &to->collection); }
static hidr_status f5(uint64_t r, struct outputs *to) { return hidr_around(r, 0, to->numbers, 2, &to->count); }
static hidr_status f6(uint64_t r, struct outputs *to) { return hidr_applications(r, to->numbers, 2, &to->count); }
static hidr_status f7(uint64_t r, struct outputs *to) { return hidr_reports(r, to->reports, 2, &to->count); }
static hidr_status f8(uint64_t r, struct outputs *to) { return hidr_reports_of(r, 0, to->reports, 2, &to->count); }
static hidr_status f9(uint64_t r, struct outputs *to) { return hidr_report_details(r, 0, 0, to->numbers, 2, &to->count); }
static hidr_status g0(uint64_t r, struct outputs *to) { return hidr_unit_exponents(r, 0, to->exponents); }
static hidr_status g1(uint64_t r, struct outputs *to) { return hidr_unit_name(r, 0, to->text, 8, &to->count); }
static hidr_status g2(uint64_t r, struct outputs *to) { return hidr_collection_name(r, 0, to->text, 8, &to->count); }
static hidr_status g3(uint64_t r, struct outputs *to) {
    return hidr_read(r, 0, REPORT, sizeof REPORT, to->values, 2, &to->count, &to->rest);
}
static hidr_status g4(uint64_t r, struct outputs *to) {
    return hidr_buffered(r, 0, REPORT, sizeof REPORT, 2, to->bytes, 8, &to->count);
}
static hidr_status g5(uint64_t r, struct outputs *to) { return hidr_physical(r, 0, 3, &to->fraction); }
static hidr_status h0(uint64_t r, struct outputs *to) { return hidr_value_of(r, 0, 90, 1, &to->raw); }
static hidr_status g6(uint64_t r, struct outputs *to) { return hidr_decimal(r, 0, 3, 1, to->text, 8, &to->count); }
static hidr_status g7(uint64_t r, struct outputs *to) {
    return hidr_write(r, 0, 0, &EAST, 1, NULL, 0, to->bytes, 8, &to->count, &to->rest);
}
static hidr_status g9(uint64_t r, struct outputs *to) {
    return hidr_changes(r, 0, REPORT, 7, REPORT, 7, to->numbers, 1, &to->count, to->numbers + 1, 1, &to->rest);
}
static hidr_status g8(uint64_t r, struct outputs *to) { return hidr_applications_of(r, 0, 0, to->numbers, 2, &to->count); }
static hidr_status h1(uint64_t r, struct outputs *to) { return hidr_strings(r, 0, to->ranges, 2, &to->count); }
static hidr_status h2(uint64_t r, struct outputs *to) { return hidr_designators(r, 0, to->ranges, 2, &to->count); }
static hidr_status h3(uint64_t r, struct outputs *to) { return hidr_collection_strings(r, 0, to->ranges, 2, &to->count); }
static hidr_status h4(uint64_t r, struct outputs *to) { return hidr_collection_designators(r, 0, to->ranges, 2, &to->count); }
static with_reader *const CALLS[] = {f0, f1, f2, f3, f4, f5, f6, f7, f8, f9, g0, g1, g2, g3, g4, g5, g6, g7, g8, g9, h0, h1, h2, h3, h4};
#define CALL_COUNT (sizeof CALLS / sizeof CALLS[0])

static void each_answers(uint64_t handle, hidr_status status) {
    for (size_t number = 0; number < CALL_COUNT; number++) {
        struct outputs to;
        FILL(to);
        ANSWERS(status, CALLS[number](handle, &to));
        if (status != HIDR_OK)
            UNTOUCHED(to);
    }
}

static hidr_reader opened(const uint8_t *text, size_t size) {
    hidr_reader reader;
    ANSWERS(HIDR_OK, hidr_reader_open(text, size, &reader, NULL));
    return reader;
}

static void handles(void) {
    hidr_reader reader = opened(TEXT, sizeof TEXT);
    hidr_descriptor descriptor;
    hidr_parser parser;
    hidr_error error;
    size_t count;
    ANSWERS(HIDR_OK, hidr_parse(TEXT, sizeof TEXT, &descriptor, NULL));
    ANSWERS(HIDR_OK, hidr_parser_open(&parser));
    each_answers(reader, HIDR_OK);
    each_answers(0, HIDR_NO_HANDLE);
    each_answers(parser, HIDR_WRONG_KIND);
    each_answers(descriptor, HIDR_WRONG_KIND);
    /* A reader serves as its descriptor, and is no parser. */
    ANSWERS(HIDR_OK, hidr_field_count(reader, &count));
    CHECK(count == 7);
    ANSWERS(HIDR_WRONG_KIND, hidr_parser_feed(reader, TEXT, 1, &error));
    ANSWERS(HIDR_WRONG_KIND, hidr_parser_finish(reader, &descriptor, &error));
    each_answers(reader, HIDR_OK);
    ANSWERS(HIDR_OK, hidr_close(reader));
    each_answers(reader, HIDR_CLOSED);
    ANSWERS(HIDR_OK, hidr_close(descriptor));
    ANSWERS(HIDR_OK, hidr_close(parser));
}

static void texts(void) {
    static const uint8_t end[] = {0x05, 0x01, 0xc0};
    hidr_parser parsers[HIDR_HANDLES];
    struct outputs to;
    FILL(to);
    ANSWERS(HIDR_NULL, hidr_reader_open(NULL, 1, &to.handle, &to.error));
    ANSWERS(HIDR_NULL, hidr_reader_open(TEXT, 1, NULL, &to.error));
    ANSWERS(HIDR_LENGTH, hidr_reader_open(TEXT, SIZE_MAX, &to.handle, &to.error));
    for (size_t number = 0; number < HIDR_HANDLES; number++)
        ANSWERS(HIDR_OK, hidr_parser_open(&parsers[number]));
    ANSWERS(HIDR_FULL, hidr_reader_open(TEXT, sizeof TEXT, &to.handle, &to.error));
    UNTOUCHED(to);
    /* A text's fault is told before that there is no handle. */
    ANSWERS(HIDR_FAULT, hidr_reader_open(end, sizeof end, &to.handle, &to.error));
    CHECK(to.error.fault == 8 && to.error.offset == 2);
    UNTOUCHED(to.handle);
    for (size_t number = 0; number < HIDR_HANDLES; number++)
        ANSWERS(HIDR_OK, hidr_close(parsers[number]));
}

static void null_pointers(hidr_reader r) {
    struct outputs to;
    FILL(to);
    ANSWERS(HIDR_NULL, hidr_detail_count(r, NULL));
    ANSWERS(HIDR_NULL, hidr_detail_at(r, 0, NULL));
    ANSWERS(HIDR_NULL, hidr_detail_of(r, 0, NULL));
    ANSWERS(HIDR_NULL, hidr_collection_count(r, NULL));
    ANSWERS(HIDR_NULL, hidr_collection_at(r, 0, NULL));
    ANSWERS(HIDR_NULL, hidr_around(r, 0, NULL, 1, &to.count));
    ANSWERS(HIDR_NULL, hidr_around(r, 0, to.numbers, 1, NULL));
    ANSWERS(HIDR_NULL, hidr_applications(r, NULL, SIZE_MAX, &to.count));
    ANSWERS(HIDR_NULL, hidr_reports(r, NULL, 1, &to.count));
    ANSWERS(HIDR_NULL, hidr_reports_of(r, 0, NULL, 1, &to.count));
    ANSWERS(HIDR_NULL, hidr_applications_of(r, 0, 0, NULL, 1, &to.count));
    ANSWERS(HIDR_NULL, hidr_applications_of(r, 0, 0, to.numbers, 1, NULL));
    ANSWERS(HIDR_NULL, hidr_report_details(r, 0, 0, NULL, 1, &to.count));
    ANSWERS(HIDR_NULL, hidr_strings(r, 0, NULL, 1, &to.count));
    ANSWERS(HIDR_NULL, hidr_designators(r, 0, to.ranges, 1, NULL));
    ANSWERS(HIDR_NULL, hidr_collection_strings(r, 0, NULL, 1, &to.count));
    ANSWERS(HIDR_NULL, hidr_collection_designators(r, 0, to.ranges, 1, NULL));
    ANSWERS(HIDR_NULL, hidr_unit_exponents(r, 0, NULL));
    ANSWERS(HIDR_NULL, hidr_unit_name(r, 0, NULL, 1, &to.count));
    ANSWERS(HIDR_NULL, hidr_collection_name(r, 0, to.text, 1, NULL));
    ANSWERS(HIDR_NULL, hidr_usage_name(0, NULL, 1, &to.count));
    ANSWERS(HIDR_NULL, hidr_page_name(0, to.text, 1, NULL));
    ANSWERS(HIDR_NULL, hidr_read(r, 0, NULL, 1, to.values, SIZE_MAX, &to.count, &to.rest));
    ANSWERS(HIDR_NULL, hidr_read(r, 0, REPORT, 7, to.values, 2, NULL, &to.rest));
    ANSWERS(HIDR_NULL, hidr_buffered(r, 0, REPORT, 7, 2, NULL, 8, &to.count));
    ANSWERS(HIDR_NULL, hidr_changes(r, 0, NULL, 7, REPORT, 7, to.numbers, SIZE_MAX, &to.count, to.numbers, 1, &to.rest));
    ANSWERS(HIDR_NULL, hidr_changes(r, 0, REPORT, 7, REPORT, 7, to.numbers, 1, &to.count, NULL, 1, &to.rest));
    ANSWERS(HIDR_NULL, hidr_changes(r, 0, REPORT, 7, REPORT, 7, to.numbers, 1, &to.count, to.numbers, 1, NULL));
    ANSWERS(HIDR_NULL, hidr_physical(r, 0, 3, NULL));
    ANSWERS(HIDR_NULL, hidr_value_of(r, 0, 90, 1, NULL));
    ANSWERS(HIDR_NULL, hidr_decimal(r, 0, 3, 1, NULL, 1, &to.count));
    ANSWERS(HIDR_NULL, hidr_write(r, 0, 0, NULL, 1, NULL, 0, to.bytes, SIZE_MAX, &to.count, &to.rest));
    ANSWERS(HIDR_NULL, hidr_write(r, 0, 0, &EAST, SIZE_MAX, NULL, 1, to.bytes, 8, &to.count, &to.rest));
    ANSWERS(HIDR_NULL, hidr_write(r, 0, 0, &EAST, 1, NULL, 0, NULL, 8, &to.count, &to.rest));
    ANSWERS(HIDR_NULL, hidr_write(r, 0, 0, &EAST, 1, NULL, 0, to.bytes, 8, NULL, &to.rest));
    UNTOUCHED(to);
}

static void lengths_and_overlaps(hidr_reader r) {
    static unsigned char over[4096];
    struct outputs to;
    FILL(to);
    ANSWERS(HIDR_LENGTH, hidr_reports(0, to.reports, SIZE_MAX / 8, &to.count));
    ANSWERS(HIDR_LENGTH, hidr_strings(0, 0, to.ranges, SIZE_MAX / 8, &to.count));
    ANSWERS(HIDR_LENGTH, hidr_usage_name(0, to.text, SIZE_MAX, &to.count));
    ANSWERS(HIDR_LENGTH, hidr_read(0, 0, REPORT, 7, to.values, SIZE_MAX / 16, &to.count, &to.rest));
    ANSWERS(HIDR_LENGTH, hidr_changes(0, 0, REPORT, SIZE_MAX, REPORT, 7, to.numbers, 1, &to.count, to.numbers, 1, &to.rest));
    ANSWERS(HIDR_LENGTH, hidr_write(0, 0, 0, &EAST, SIZE_MAX / 8, NULL, 0, to.bytes, 8, &to.count, &to.rest));
    ANSWERS(HIDR_LENGTH, hidr_write(0, 0, 0, &EAST, 1, REPORT, SIZE_MAX, to.bytes, 8, &to.count, &to.rest));
    UNTOUCHED(to);
    /* What is read lazily may not stand where it is written. */
    memcpy(over + 100, REPORT, sizeof REPORT);
    ANSWERS(HIDR_OVERLAP, hidr_read(r, 0, over + 100, 7, (hidr_value *)(void *)(over + 80), 1, &to.count, &to.rest));
    ANSWERS(HIDR_OVERLAP, hidr_read(r, 0, over + 100, 7, (hidr_value *)(void *)(over + 106), 9, &to.count, &to.rest));
    UNTOUCHED(to);
    CHECK(memcmp(over + 100, REPORT, sizeof REPORT) == 0);
    ANSWERS(HIDR_OK, hidr_read(r, 0, over + 100, 7, (hidr_value *)(void *)(over + 107), 9, &to.count, NULL));
    CHECK(to.count == 9);
    ANSWERS(HIDR_OK, hidr_read(r, 0, REPORT, 7, NULL, 0, &to.count, NULL));
    /* Where there is room for nothing, nothing is written, wherever it points. */
    ANSWERS(HIDR_OK, hidr_read(r, 0, over + 100, 7, (hidr_value *)(void *)(over + 103), 0, &to.count, NULL));
    CHECK(to.count == 9);
}

static void what_is_absent(hidr_reader r) {
    struct outputs to;
    FILL(to);
    ANSWERS(HIDR_ABSENT, hidr_detail_at(r, 8, &to.detail));
    ANSWERS(HIDR_ABSENT, hidr_detail_at(r, SIZE_MAX, &to.detail));
    ANSWERS(HIDR_ABSENT, hidr_detail_of(r, 7, &to.count));
    ANSWERS(HIDR_ABSENT, hidr_collection_at(r, 1, &to.collection));
    ANSWERS(HIDR_ABSENT, hidr_around(r, 8, to.numbers, 2, &to.count));
    ANSWERS(HIDR_ABSENT, hidr_reports_of(r, 1, to.reports, 2, &to.count));
    ANSWERS(HIDR_ABSENT, hidr_applications_of(r, 0, 1, to.numbers, 2, &to.count));
    ANSWERS(HIDR_ABSENT, hidr_applications_of(r, 2, 0, to.numbers, 2, &to.count));
    ANSWERS(HIDR_ABSENT, hidr_applications_of(r, 3, 0, to.numbers, 2, &to.count));
    ANSWERS(HIDR_ABSENT, hidr_report_details(r, 0, 1, to.numbers, 2, &to.count));
    ANSWERS(HIDR_ABSENT, hidr_report_details(r, 3, 0, to.numbers, 2, &to.count));
    ANSWERS(HIDR_ABSENT, hidr_strings(r, 8, to.ranges, 2, &to.count));
    ANSWERS(HIDR_ABSENT, hidr_designators(r, 8, to.ranges, 2, &to.count));
    ANSWERS(HIDR_ABSENT, hidr_collection_strings(r, 1, to.ranges, 2, &to.count));
    ANSWERS(HIDR_ABSENT, hidr_collection_designators(r, SIZE_MAX, to.ranges, 2, &to.count));
    ANSWERS(HIDR_ABSENT, hidr_unit_exponents(r, 8, to.exponents));
    ANSWERS(HIDR_ABSENT, hidr_unit_name(r, 8, to.text, 8, &to.count));
    ANSWERS(HIDR_ABSENT, hidr_collection_name(r, 1, to.text, 8, &to.count));
    ANSWERS(HIDR_ABSENT, hidr_physical(r, 7, 0, &to.fraction));
    ANSWERS(HIDR_ABSENT, hidr_decimal(r, 7, 0, 1, to.text, 8, &to.count));
    ANSWERS(HIDR_EMPTY_REPORT, hidr_read(r, 0, REPORT, 0, to.values, 2, &to.count, &to.rest));
    ANSWERS(HIDR_EMPTY_REPORT, hidr_read(r, 9, NULL, 0, to.values, 2, &to.count, &to.rest));
    ANSWERS(HIDR_UNKNOWN_REPORT, hidr_read(r, HIDR_FEATURE, REPORT, 7, to.values, 2, &to.count, &to.rest));
    ANSWERS(HIDR_UNKNOWN_REPORT, hidr_read(r, 3, REPORT, 7, to.values, 2, &to.count, &to.rest));
    ANSWERS(HIDR_SHORT_REPORT, hidr_read(r, 0, REPORT, 5, to.values, 2, &to.count, &to.rest));
    ANSWERS(HIDR_UNKNOWN_REPORT, hidr_buffered(r, 3, REPORT, 7, 2, to.bytes, 8, &to.count));
    ANSWERS(HIDR_ABSENT, hidr_buffered(r, 0, REPORT, 7, 0, to.bytes, 8, &to.count));
    ANSWERS(HIDR_ABSENT, hidr_buffered(r, HIDR_OUTPUT, REPORT, 7, 2, to.bytes, 8, &to.count));
    UNTOUCHED(to);
}

/* Units and extents that give no value in a unit. */
static void no_units(hidr_reader r) {
    struct outputs to;
    FILL(to);
    ANSWERS(HIDR_EQUAL_LIMITS, hidr_physical(r, 3, 5, &to.fraction));
    ANSWERS(HIDR_EQUAL_LIMITS, hidr_decimal(r, 3, 5, 1, to.text, 8, &to.count));
    ANSWERS(HIDR_INVERTED_LIMITS, hidr_physical(r, 4, 5, &to.fraction));
    ANSWERS(HIDR_TOO_LARGE, hidr_physical(r, 0, INT64_MAX, &to.fraction));
    ANSWERS(HIDR_RESERVED_SYSTEM, hidr_unit_exponents(r, 4, to.exponents));
    ANSWERS(HIDR_VENDOR_SYSTEM, hidr_unit_exponents(r, 5, to.exponents));
    ANSWERS(HIDR_NO_SYSTEM, hidr_unit_exponents(r, 6, to.exponents));
    ANSWERS(HIDR_RESERVED_DIGIT, hidr_unit_exponents(r, 7, to.exponents));
    UNTOUCHED(to);
}

/* A collection with a string and a designator, and no item. */
static void names_of_a_collection(void) {
    static const uint8_t text[] = {0x79, 5, 0x39, 6, 0xa1, 1, 0xc0};
    hidr_reader reader = opened(text, sizeof text);
    hidr_range range;
    size_t count;
    ANSWERS(HIDR_OK, hidr_collection_strings(reader, 0, &range, 1, &count));
    CHECK(count == 1 && range.first == 5 && range.last == 5);
    ANSWERS(HIDR_OK, hidr_collection_designators(reader, 0, &range, 1, &count));
    CHECK(count == 1 && range.first == 6 && range.last == 6);
    ANSWERS(HIDR_OK, hidr_close(reader));
}

/* What is no value of a field. */
static void no_values(hidr_reader r) {
    struct outputs to;
    FILL(to);
    ANSWERS(HIDR_ABSENT, hidr_value_of(r, 7, 90, 1, &to.raw));
    ANSWERS(HIDR_EQUAL_LIMITS, hidr_value_of(r, 3, 5, 0, &to.raw));
    ANSWERS(HIDR_INVERTED_LIMITS, hidr_value_of(r, 4, 5, 1, &to.raw));
    ANSWERS(HIDR_NO_STEP, hidr_value_of(r, 0, 91, 1, &to.raw));
    ANSWERS(HIDR_NO_STEP, hidr_value_of(r, 0, 360, 1, &to.raw));
    ANSWERS(HIDR_NO_STEP, hidr_value_of(r, 0, 90, 0, &to.raw));
    ANSWERS(HIDR_NO_STEP, hidr_value_of(r, 0, INT64_MIN, UINT64_MAX, &to.raw));
    UNTOUCHED(to);
}

static void what_is_told(hidr_reader r) {
    struct outputs to;
    FILL(to);
    ANSWERS(HIDR_OK, hidr_detail_at(r, 0, &to.detail));
    CHECK(to.detail.offset == 25 && to.detail.flags == (HIDR_VARIABLE | HIDR_NULL_STATE) && to.detail.physical_max == 315 &&
          to.detail.unit == 0x14 && to.detail.application == 0 && to.detail.field == 0 && to.detail.kind == HIDR_INPUT);
    ANSWERS(HIDR_OK, hidr_detail_at(r, 1, &to.detail));
    CHECK((to.detail.flags & HIDR_CONSTANT) && to.detail.field == HIDR_NONE && to.detail.bit == 4);
    ANSWERS(HIDR_OK, hidr_strings(r, 0, to.ranges, 2, &to.count));
    CHECK(to.count == 1 && to.ranges[0].first == 7 && to.ranges[0].last == 7);
    ANSWERS(HIDR_OK, hidr_designators(r, 0, to.ranges, 2, &to.count));
    CHECK(to.count == 0);
    ANSWERS(HIDR_OK, hidr_reports(r, to.reports, 2, &to.count));
    CHECK(to.count == 2 && to.reports[0].bits == 48 && to.reports[0].bytes == 6 && to.reports[1].kind == HIDR_OUTPUT);
    FILL(to);
    ANSWERS(HIDR_OK, hidr_report_details(r, 0, 0, to.numbers, 1, &to.count));
    CHECK(to.count == 7 && to.numbers[0] == 0);
    UNTOUCHED(to.numbers[1]);
    FILL(to);
    ANSWERS(HIDR_OK, hidr_applications_of(r, 1, 0, to.numbers, 2, &to.count));
    CHECK(to.count == 1 && to.numbers[0] == 0);
    UNTOUCHED(to.numbers[1]);
    ANSWERS(HIDR_OK, hidr_read(r, 0, REPORT, 7, to.values, 1, &to.count, &to.rest));
    CHECK(to.count == 9 && to.rest == 1 && to.values[0].raw == 3 && to.values[0].usage == 0x00010039 &&
          to.values[0].within == HIDR_IN_RANGE && to.values[0].has_usage == 1);
    UNTOUCHED(to.values[1]);
    ANSWERS(HIDR_OK, hidr_buffered(r, 0, REPORT, 7, 2, to.bytes, 1, &to.count));
    CHECK(to.count == 2 && to.bytes[0] == 0x21 && to.bytes[1] == BLANK);
    ANSWERS(HIDR_OK, hidr_buffered(r, 0, REPORT, 7, 2, to.bytes, 8, &to.count));
    CHECK(to.count == 2 && to.bytes[1] == 3);
    ANSWERS(HIDR_OK, hidr_physical(r, 0, 3, &to.fraction));
    CHECK(to.fraction.numerator == 90 && to.fraction.denominator == 1 && to.fraction.exponent == 0);
    ANSWERS(HIDR_OK, hidr_value_of(r, 0, 180, 2, &to.raw));
    CHECK(to.raw == 3);
}

/* What two reports differ in. */
static void what_changes(hidr_reader r) {
    struct outputs to;
    FILL(to);
    ANSWERS(HIDR_SHORT_REPORT, hidr_changes(r, 0, REPORT, 5, REPORT, 0, to.numbers, 1, &to.count, to.numbers, 1, &to.rest));
    ANSWERS(HIDR_EMPTY_REPORT, hidr_changes(r, 0, REPORT, 7, REPORT, 0, to.numbers, 1, &to.count, to.numbers, 1, &to.rest));
    ANSWERS(HIDR_UNKNOWN_REPORT, hidr_changes(r, 3, REPORT, 7, REPORT, 7, to.numbers, 1, &to.count, to.numbers, 1, &to.rest));
    UNTOUCHED(to);
    uint8_t now[7];
    memcpy(now, REPORT, sizeof now);
    now[1] = 5, now[2] = 6; /* B and C in place of A */
    ANSWERS(HIDR_OK, hidr_changes(r, 0, REPORT, 7, now, 7, to.numbers, 1, &to.count, to.numbers + 1, 1, &to.rest));
    CHECK(to.count == 2 && to.numbers[0] == 0x00070005 && to.rest == 1 && to.numbers[1] == 0x00070004);
    ANSWERS(HIDR_OK, hidr_changes(r, 0, now, 7, now, 6, NULL, 0, &to.count, NULL, 0, &to.rest));
    CHECK(to.count == 0 && to.rest == 0);
    hidr_reader other = opened(CONSUMER, sizeof CONSUMER);
    static const uint8_t volume[] = {2, 1}, both[] = {3, 0};
    FILL(to);
    ANSWERS(HIDR_OTHER_ID, hidr_changes(other, 0, volume, 2, both, 2, to.numbers, 1, &to.count, to.numbers, 1, &to.rest));
    UNTOUCHED(to);
    ANSWERS(HIDR_OK, hidr_close(other));
}

/* A name is as much as fits, with a NUL behind it. */
static void names(hidr_reader r) {
    struct outputs to;
    FILL(to.text);
    ANSWERS(HIDR_OK, hidr_unit_name(r, 0, to.text, 4, &to.count));
    CHECK(to.count == 6 && strcmp(to.text, "deg") == 0 && to.text[4] == (char)BLANK);
    ANSWERS(HIDR_OK, hidr_unit_name(r, 0, to.text, 1, &to.count));
    CHECK(to.count == 6 && to.text[0] == 0 && to.text[1] == 'e');
    FILL(to.text);
    ANSWERS(HIDR_OK, hidr_unit_name(r, 0, NULL, 0, &to.count));
    ANSWERS(HIDR_OK, hidr_usage_name(0x00080001, to.text, 8, &to.count));
    CHECK(to.count == 8 && strcmp(to.text, "Num Loc") == 0);
    ANSWERS(HIDR_OK, hidr_page_name(8, to.text, 8, &to.count));
    CHECK(to.count == 3 && strcmp(to.text, "LED") == 0);
    ANSWERS(HIDR_OK, hidr_page_name(0x7777, to.text, 8, &to.count));
    CHECK(to.count == 0 && to.text[0] == 0);
    ANSWERS(HIDR_OK, hidr_decimal(r, 0, 2, 3, to.text, 8, &to.count));
    CHECK(strcmp(to.text, "45") == 0);
}

/* What can't be written, and the place of the setting that is at fault. */
static void refused_settings(hidr_reader r) {
    static const struct {
        hidr_status status;
        hidr_setting setting;
    } refused[] = {{HIDR_UNKNOWN_CONTROL, {.control = 0x00010030}},
                   {HIDR_UNKNOWN_CONTROL, {.control = 0x00010039, .place = 1}},
                   {HIDR_UNKNOWN_CONTROL, {.control = 9, .by = HIDR_BY_FIELD}},
                   {HIDR_UNKNOWN_CONTROL, {.control = 0, .by = 2}},
                   {HIDR_TWICE, {.control = 0x00010039, .value = 3}},
                   {HIDR_NO_NULL, {.control = 0x00070004, .null = 1}},
                   {HIDR_TOO_LARGE, {.control = 2, .by = HIDR_BY_FIELD, .value = 16}},
                   {HIDR_OUT_OF_RANGE, {.control = 5, .by = HIDR_BY_FIELD, .value = 2}},
                   {HIDR_OUT_OF_RANGE, {.control = 0x00070004, .value = 2}}};
    struct outputs to;
    FILL(to);
    for (size_t number = 0; number < sizeof refused / sizeof refused[0]; number++) {
        hidr_setting settings[2] = {EAST, refused[number].setting};
        ANSWERS(refused[number].status, hidr_write(r, 0, 0, settings, 2, REPORT, 7, to.bytes, 8, &to.count, &to.rest));
        CHECK(to.rest == 1);
        FILL(to.rest);
        ANSWERS(refused[number].status, hidr_write(r, 0, 0, settings, 2, NULL, 0, to.bytes, 8, &to.count, NULL));
    }
    hidr_setting three[3];
    for (uint32_t number = 0; number < 3; number++)
        three[number] = (hidr_setting){.control = 0x00070004 + number, .value = 1};
    ANSWERS(HIDR_NO_ROOM, hidr_write(r, 0, 0, three, 3, NULL, 0, to.bytes, 8, &to.count, &to.rest));
    CHECK(to.rest == 2);
    FILL(to.rest);
    UNTOUCHED(to);
}

static void what_is_written(hidr_reader r) {
    uint8_t report[7];
    struct outputs to;
    FILL(to);
    ANSWERS(HIDR_UNKNOWN_REPORT, hidr_write(r, HIDR_FEATURE, 0, &EAST, 1, NULL, 0, to.bytes, 8, &to.count, &to.rest));
    ANSWERS(HIDR_UNKNOWN_REPORT, hidr_write(r, 3, 0, &EAST, 1, NULL, 0, to.bytes, 8, &to.count, &to.rest));
    ANSWERS(HIDR_SHORT_REPORT, hidr_write(r, 0, 0, &EAST, 1, REPORT, 5, to.bytes, 8, &to.count, &to.rest));
    UNTOUCHED(to);
    hidr_reader other = opened(CONSUMER, sizeof CONSUMER);
    ANSWERS(HIDR_OTHER_ID, hidr_write(other, 0, 2, NULL, 0, REPORT, 7, to.bytes, 8, &to.count, &to.rest));
    UNTOUCHED(to);
    ANSWERS(HIDR_NO_UNUSED, hidr_write(other, 0, 3, NULL, 0, NULL, 0, to.bytes, 8, &to.count, &to.rest));
    CHECK(to.rest == 1);
    ANSWERS(HIDR_OK, hidr_write(other, 0, 2, NULL, 0, NULL, 0, to.bytes, 8, &to.count, NULL));
    CHECK(to.count == 2 && to.bytes[0] == 2 && to.bytes[1] == 0);
    ANSWERS(HIDR_OK, hidr_close(other));
    /* A hat that is new is null, and one bit of padding or of another field is never changed. */
    FILL(to);
    ANSWERS(HIDR_OK, hidr_write(r, 0, 0, NULL, 0, NULL, 0, to.bytes, 1, &to.count, &to.rest));
    CHECK(to.count == 6 && to.bytes[0] == 0 && to.bytes[1] == BLANK);
    UNTOUCHED(to.rest);
    memcpy(report, REPORT, sizeof report);
    hidr_setting null = {.control = 0x00010039, .null = 1};
    ANSWERS(HIDR_OK, hidr_write(r, 0, 0, &null, 1, report, 7, report, 7, &to.count, NULL));
    CHECK(to.count == 7 && report[0] == 0xf0 && memcmp(report + 1, REPORT + 1, 6) == 0);
}

/* How many requests of each call are refused in turn until it serves, which leaves nothing behind. */
static void memory(hidr_reader r) {
    size_t refused[4] = {0};
    for (int call = 0; call < 4; call++)
        for (;; refused[call]++) {
            struct outputs to;
            hidr_status status;
            FILL(to);
            if (call == 0)
                GRANTED(refused[call], status, hidr_reader_open(TEXT, sizeof TEXT, &to.handle, &to.error));
            else
                GRANTED(refused[call], status, call == 1 ? g4(r, &to) : call == 2 ? g7(r, &to) : g9(r, &to));
            if (status == HIDR_OK) {
                if (call == 0)
                    ANSWERS(HIDR_OK, hidr_close(to.handle));
                break;
            }
            ANSWERS(HIDR_NO_MEMORY, status);
            UNTOUCHED(to);
        }
    /* No other call takes memory. */
    for (size_t number = 0; number < CALL_COUNT; number++) {
        struct outputs to;
        if (CALLS[number] == g4 || CALLS[number] == g7 || CALLS[number] == g9)
            continue;
        hidr_status status;
        GRANTED(0, status, CALLS[number](r, &to));
        ANSWERS(HIDR_OK, status);
        CHECK(requests == 0);
    }
    CHECK(refused[0] > 6);
    printf("each refusal of a reader's calls; requests refused in turn: %zu of a reader, %zu of bytes, %zu of a report, %zu of changes\n",
           refused[0], refused[1], refused[2], refused[3]);
}

int main(void) {
    _Static_assert(sizeof(hidr_detail) == 88 && sizeof(hidr_collection) == 24 && sizeof(hidr_report) == 24, "as in src/details.rs");
    _Static_assert(sizeof(hidr_value) == 24 && offsetof(hidr_value, item) == 20, "as in src/values.rs");
    _Static_assert(sizeof(hidr_setting) == 24 && offsetof(hidr_setting, null) == 17, "as in src/values.rs");
    setvbuf(stdout, NULL, _IONBF, 0);
    handles();
    texts();
    hidr_reader reader = opened(TEXT, sizeof TEXT);
    null_pointers(reader);
    lengths_and_overlaps(reader);
    what_is_absent(reader);
    no_units(reader);
    names_of_a_collection();
    no_values(reader);
    what_is_told(reader);
    what_changes(reader);
    names(reader);
    refused_settings(reader);
    what_is_written(reader);
    memory(reader);
    ANSWERS(HIDR_OK, hidr_close(reader));
    CHECK(free_handles() == HIDR_HANDLES);
    return 0;
}
