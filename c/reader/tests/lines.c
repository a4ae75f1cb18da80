// SPDX-License-Identifier: MIT OR Apache-2.0
/* lines PIECE..: the fields of the descriptor on standard input as `kbsim parse` prints them (docs/simulator.md), once for
 * each PIECE, read in pieces of so many bytes, or whole where that is 0. */
#include "check.h"

#include <inttypes.h>

static uint8_t text[1 << 16];

static void print_usages(hidr_descriptor descriptor, size_t number) {
    size_t count, again;
    ANSWERS(HIDR_OK, hidr_ranges(descriptor, number, NULL, 0, &count));
    hidr_range *ranges = malloc(count * sizeof *ranges + 1);
    CHECK(ranges != NULL);
    ANSWERS(HIDR_OK, hidr_ranges(descriptor, number, ranges, count, &again));
    CHECK(again == count);
    if (count == 0)
        printf("-");
    for (size_t at = 0; at < count; at++) {
        printf("%s%08" PRIx32, at > 0 ? "," : "", ranges[at].first);
        if (ranges[at].first != ranges[at].last)
            printf("-%08" PRIx32, ranges[at].last);
    }
    free(ranges);
}

static void print_fields(hidr_descriptor descriptor) {
    static const char *const kinds[] = {"input", "output", "feature"};
    hidr_field field;
    size_t count;
    ANSWERS(HIDR_OK, hidr_field_count(descriptor, &count));
    for (size_t number = 0; number < count; number++) {
        ANSWERS(HIDR_OK, hidr_field_at(descriptor, number, &field));
        printf("%s %u %" PRIu64 " %u %u %" PRId64 " %" PRId64 " %s ", kinds[field.kind], field.id, field.bit, field.size,
               field.count, field.min, field.max, field.array ? "array" : "variable");
        print_usages(descriptor, number);
        printf("\n");
    }
}

static hidr_status parsed(size_t length, size_t piece, hidr_descriptor *descriptor, hidr_error *error) {
    hidr_parser parser;
    if (piece == 0)
        return hidr_parse(text, length, descriptor, error);
    ANSWERS(HIDR_OK, hidr_parser_open(&parser));
    for (size_t at = 0; at < length; at += piece) {
        hidr_status status = hidr_parser_feed(parser, text + at, length - at < piece ? length - at : piece, error);
        if (status == HIDR_OK)
            continue;
        ANSWERS(HIDR_OK, hidr_close(parser));
        return status;
    }
    hidr_status status = hidr_parser_finish(parser, descriptor, error);
    if (status != HIDR_OK)
        ANSWERS(HIDR_OK, hidr_close(parser));
    return status;
}

/* 0 where the text is a descriptor. */
static int print_parsed(size_t length, size_t piece) {
    hidr_descriptor descriptor;
    hidr_error error;
    hidr_status status = parsed(length, piece, &descriptor, &error);
    if (status == HIDR_FAULT) {
        printf("fault parse %" PRIu32 " at %" PRIu64 "\n", error.fault, error.offset);
        return 1;
    }
    ANSWERS(HIDR_OK, status);
    print_fields(descriptor);
    ANSWERS(HIDR_OK, hidr_close(descriptor));
    return 0;
}

int main(int argc, char **argv) {
    int refused = 0;
    size_t length = fread(text, 1, sizeof text, stdin);
    CHECK(length < sizeof text);
    for (int number = 1; number < argc; number++)
        refused |= print_parsed(length, strtoul(argv[number], NULL, 10));
    CHECK(free_handles() == HIDR_HANDLES);
    return refused;
}
