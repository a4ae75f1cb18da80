// SPDX-License-Identifier: MIT OR Apache-2.0
/* Want of memory: each request of each call is refused in turn. */
#include "check.h"
#include "refusing.h"

static const uint8_t REPORT[8] = {2, 0, 4, 5};

/* How many requests of a whole text are refused in turn until it is parsed. */
static size_t whole(void) {
    hidr_descriptor descriptor;
    hidr_error error;
    hidr_status status;
    size_t count = 0;
    for (;; count++) {
        FILL(descriptor);
        FILL(error);
        GRANTED(count, status, hidr_parse(KEYBOARD, sizeof KEYBOARD, &descriptor, &error));
        UNTOUCHED(error);
        if (status == HIDR_OK)
            break;
        ANSWERS(HIDR_NO_MEMORY, status);
        UNTOUCHED(descriptor);
        CHECK(free_handles() == HIDR_HANDLES);
    }
    ANSWERS(HIDR_OK, hidr_close(descriptor));
    return count;
}

/* The same of a text that is fed byte by byte: the parser that was refused memory answers so for ever, and is closed. */
static size_t in_pieces(void) {
    hidr_descriptor descriptor;
    hidr_parser parser;
    hidr_error error;
    hidr_status status = HIDR_OK;
    size_t count = 0;
    for (;; count++) {
        /* Requests are counted over all pieces. */
        size_t left = count;
        FILL(descriptor);
        FILL(error);
        GRANTED(0, status, hidr_parser_open(&parser));
        ANSWERS(HIDR_OK, status);
        for (size_t at = 0; at < sizeof KEYBOARD && status == HIDR_OK; at++) {
            GRANTED(left, status, hidr_parser_feed(parser, KEYBOARD + at, 1, &error));
            left -= requests < left ? requests : left;
        }
        if (status == HIDR_OK)
            break;
        ANSWERS(HIDR_NO_MEMORY, status);
        ANSWERS(HIDR_NO_MEMORY, hidr_parser_feed(parser, KEYBOARD, 1, &error));
        ANSWERS(HIDR_NO_MEMORY, hidr_parser_finish(parser, &descriptor, &error));
        UNTOUCHED(error);
        UNTOUCHED(descriptor);
        ANSWERS(HIDR_OK, hidr_close(parser));
        CHECK(free_handles() == HIDR_HANDLES);
    }
    /* The end of a text takes no memory. */
    GRANTED(0, status, hidr_parser_finish(parser, &descriptor, &error));
    ANSWERS(HIDR_OK, status);
    ANSWERS(HIDR_OK, hidr_close(descriptor));
    return count;
}

/* Questions about a descriptor take no memory. */
static void questions(hidr_descriptor descriptor) {
    hidr_field field;
    hidr_range range;
    hidr_status status;
    size_t count;
    uint32_t usage;
    uint8_t uses;
    GRANTED(0, status, hidr_field_count(descriptor, &count));
    ANSWERS(HIDR_OK, status);
    GRANTED(0, status, hidr_field_at(descriptor, 0, &field));
    ANSWERS(HIDR_OK, status);
    GRANTED(0, status, hidr_ranges(descriptor, 0, &range, 1, &count));
    ANSWERS(HIDR_OK, status);
    GRANTED(0, status, hidr_usage_at(descriptor, 0, 0, &usage));
    ANSWERS(HIDR_OK, status);
    GRANTED(0, status, hidr_uses_ids(descriptor, &uses));
    ANSWERS(HIDR_OK, status);
    GRANTED(0, status, hidr_report_length(descriptor, HIDR_INPUT, 0, &count));
    ANSWERS(HIDR_OK, status);
    GRANTED(0, status, hidr_close(descriptor));
    ANSWERS(HIDR_OK, status);
}

/* How many requests of the two calls that read a report are refused in turn until they serve. */
static size_t readings(void) {
    hidr_descriptor descriptor;
    hidr_found found[16];
    uint32_t on[16];
    hidr_status status;
    size_t count, refused = 0;
    ANSWERS(HIDR_OK, hidr_parse(KEYBOARD, sizeof KEYBOARD, &descriptor, NULL));
    for (int call = 0; call < 2; call++)
        for (size_t number = 0;; number++, refused++) {
            FILL(found);
            FILL(on);
            FILL(count);
            if (call == 0)
                GRANTED(number, status, hidr_extract(descriptor, REPORT, sizeof REPORT, found, 16, &count));
            else
                GRANTED(number, status, hidr_pressed(descriptor, REPORT, sizeof REPORT, on, 16, &count));
            if (status == HIDR_OK)
                break;
            ANSWERS(HIDR_NO_MEMORY, status);
            UNTOUCHED(found);
            UNTOUCHED(on);
            UNTOUCHED(count);
        }
    CHECK(count == 3 && on[0] == 0x00070004 && on[1] == 0x00070005 && on[2] == 0x000700e1);
    questions(descriptor);
    return refused;
}

int main(void) {
    size_t of_whole, of_pieces, of_readings;
    setvbuf(stdout, NULL, _IONBF, 0);
    of_whole = whole();
    of_pieces = in_pieces();
    of_readings = readings();
    CHECK(of_whole > 0 && of_pieces > 0 && of_readings > 0);
    CHECK(free_handles() == HIDR_HANDLES);
    printf("each request refused in turn: %zu of a text, %zu in pieces, %zu of readings\n", of_whole, of_pieces, of_readings);
    return 0;
}
