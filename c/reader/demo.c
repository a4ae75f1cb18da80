// SPDX-License-Identifier: MIT OR Apache-2.0
/* Reads a keyboard's report descriptor as it comes off the bus, in packets of 8 bytes, and then a report by it. */
#include "hid_reader.h"

#include <inttypes.h>
#include <stdio.h>

/* Eight modifiers, a bit each, and six places for keys. */
static const uint8_t text[] = {
    0x05, 0x01, 0x09, 0x06, 0xa1, 0x01,                                                             /* a keyboard */
    0x05, 0x07, 0x19, 0xe0, 0x29, 0xe7, 0x15, 0x00, 0x25, 0x01, 0x75, 0x01, 0x95, 0x08, 0x81, 0x02, /* modifiers */
    0x95, 0x01, 0x75, 0x08, 0x81, 0x01,                                                             /* padding */
    0x95, 0x06, 0x26, 0xff, 0x00, 0x19, 0x00, 0x2a, 0xff, 0x00, 0x81, 0x00,                         /* keys */
    0xc0};
/* Left Shift, A and B. */
static const uint8_t report[] = {0x02, 0x00, 0x04, 0x05, 0x00, 0x00, 0x00, 0x00};

/* A dial of 0 to 15 for 0 to 270 degrees. */
static const uint8_t dial[] = {0x05, 0x01, 0x09, 0x37, 0xa1, 0x01, 0x09, 0x37, 0x25, 0x0f, 0x46, 0x0e, 0x01,
                               0x65, 0x14, 0x75, 0x08, 0x95, 0x01, 0x81, 0x02, 0xc0};

/* The descriptor of the text, or 0, and why. */
static hidr_descriptor read_in_packets(void) {
    hidr_parser parser;
    hidr_descriptor descriptor = 0;
    hidr_error error;
    hidr_status status = hidr_parser_open(&parser);
    if (status != HIDR_OK) {
        printf("no parser: %s\n", hidr_status_name(status));
        return 0;
    }
    for (size_t at = 0; at < sizeof text && status == HIDR_OK; at += 8)
        status = hidr_parser_feed(parser, text + at, sizeof text - at < 8 ? sizeof text - at : 8, &error);
    if (status == HIDR_OK)
        status = hidr_parser_finish(parser, &descriptor, &error);
    if (status == HIDR_FAULT)
        printf("fault %" PRIu32 " at %" PRIu64 ": %s\n", error.fault, error.offset, hidr_fault_name(error.fault));
    if (status != HIDR_OK)
        hidr_close(parser);
    return descriptor;
}

static void show_fields(hidr_descriptor descriptor) {
    static const char *const kinds[] = {"input", "output", "feature"};
    hidr_field field;
    for (size_t number = 0; hidr_field_at(descriptor, number, &field) == HIDR_OK; number++) {
        hidr_range range;
        size_t ranges;
        printf("%s, bit %" PRIu64 ": %u of %u bits, %s", kinds[field.kind], field.bit, field.count, field.size,
               field.array ? "array" : "variable");
        if (hidr_ranges(descriptor, number, &range, 1, &ranges) == HIDR_OK && ranges > 0)
            printf(", usages from %08" PRIx32 " to %08" PRIx32, range.first, range.last);
        printf("\n");
    }
}

static void show_report(hidr_descriptor descriptor) {
    uint32_t on[16];
    size_t count;
    hidr_status status = hidr_pressed(descriptor, report, sizeof report, on, 16, &count);
    printf("pressed: %s, %zu\n", hidr_status_name(status), count);
    for (size_t number = 0; number < count && number < 16; number++)
        printf("  %08" PRIx32 "\n", on[number]);
}

/* A value in its unit, and back. */
static void show_degrees(void) {
    hidr_reader reader;
    hidr_fraction exact;
    int64_t raw;
    if (hidr_reader_open(dial, sizeof dial, &reader, NULL) != HIDR_OK)
        return;
    if (hidr_physical(reader, 0, 5, &exact) == HIDR_OK)
        printf("5 of the dial: %" PRId64 "/%" PRId64 "e%" PRId64 " degrees\n", exact.numerator, exact.denominator, exact.exponent);
    if (hidr_value_of(reader, 0, 90, 1, &raw) == HIDR_OK)
        printf("90 degrees: %" PRId64 " of the dial\n", raw);
    printf("91 degrees: %s\n", hidr_status_name(hidr_value_of(reader, 0, 91, 1, &raw)));
    hidr_close(reader);
}

int main(void) {
    static const uint8_t wrong[] = {0x05, 0x01, 0xc0};
    hidr_descriptor descriptor = read_in_packets(), other;
    hidr_error error;
    size_t count;
    if (descriptor == 0)
        return 1;
    show_fields(descriptor);
    show_report(descriptor);
    show_degrees();

    /* What is refused is told, and nothing has changed. */
    printf("a short report: %s\n", hidr_status_name(hidr_pressed(descriptor, report, 3, NULL, 0, &count)));
    if (hidr_parse(wrong, sizeof wrong, &other, &error) == HIDR_FAULT)
        printf("a wrong text: %s at %" PRIu64 "\n", hidr_fault_name(error.fault), error.offset);
    hidr_close(descriptor);
    printf("a closed handle: %s\n", hidr_status_name(hidr_field_count(descriptor, &count)));
    return 0;
}
