// SPDX-License-Identifier: MIT OR Apache-2.0
/* Each refusal of each call, by its own status, after which nothing was written and no handle was opened or closed. */
#include "check.h"

/* All that a call can write. */
struct outputs {
    uint64_t handle;
    hidr_error error;
    hidr_field field;
    hidr_range ranges[2];
    hidr_found found[2];
    uint32_t usages[2];
    size_t count;
    uint8_t flag;
};

static const uint8_t PIECE[] = {0x05};
static const uint8_t REPORT[8] = {2, 0, 4};

/* A call with a handle: its first argument. */
enum kind { PARSER, DESCRIPTOR, EITHER };
typedef hidr_status with_handle(uint64_t handle, struct outputs *to);

static hidr_status feed(uint64_t handle, struct outputs *to) { return hidr_parser_feed(handle, PIECE, 1, &to->error); }
static hidr_status finish(uint64_t handle, struct outputs *to) { return hidr_parser_finish(handle, &to->handle, &to->error); }
static hidr_status field_count(uint64_t handle, struct outputs *to) { return hidr_field_count(handle, &to->count); }
static hidr_status field_at(uint64_t handle, struct outputs *to) { return hidr_field_at(handle, 0, &to->field); }
static hidr_status ranges(uint64_t handle, struct outputs *to) { return hidr_ranges(handle, 0, to->ranges, 2, &to->count); }
static hidr_status usage_at(uint64_t handle, struct outputs *to) { return hidr_usage_at(handle, 0, 0, to->usages); }
static hidr_status uses_ids(uint64_t handle, struct outputs *to) { return hidr_uses_ids(handle, &to->flag); }
static hidr_status length(uint64_t handle, struct outputs *to) { return hidr_report_length(handle, 0, 0, &to->count); }
static hidr_status extract(uint64_t handle, struct outputs *to) {
    return hidr_extract(handle, REPORT, sizeof REPORT, to->found, 2, &to->count);
}
static hidr_status pressed(uint64_t handle, struct outputs *to) {
    return hidr_pressed(handle, REPORT, sizeof REPORT, to->usages, 2, &to->count);
}
static hidr_status close_it(uint64_t handle, struct outputs *to) {
    (void)to;
    return hidr_close(handle);
}

static const struct call {
    with_handle *run;
    enum kind kind;
} CALLS[] = {{feed, PARSER},        {finish, PARSER},       {field_count, DESCRIPTOR}, {field_at, DESCRIPTOR},
             {ranges, DESCRIPTOR},  {usage_at, DESCRIPTOR}, {uses_ids, DESCRIPTOR},    {length, DESCRIPTOR},
             {extract, DESCRIPTOR}, {pressed, DESCRIPTOR},  {close_it, EITHER}};
#define CALL_COUNT (sizeof CALLS / sizeof CALLS[0])

static void each_call_refuses(uint64_t handle, hidr_status status, enum kind but_not) {
    for (size_t number = 0; number < CALL_COUNT; number++) {
        struct outputs to;
        if (but_not != EITHER && (CALLS[number].kind == but_not || CALLS[number].kind == EITHER))
            continue;
        FILL(to);
        ANSWERS(status, CALLS[number].run(handle, &to));
        UNTOUCHED(to);
    }
}

static hidr_descriptor parsed(const uint8_t *text, size_t size) {
    hidr_descriptor descriptor;
    ANSWERS(HIDR_OK, hidr_parse(text, size, &descriptor, NULL));
    return descriptor;
}

static void handles(void) {
    hidr_descriptor descriptor = parsed(KEYBOARD, sizeof KEYBOARD), finished;
    hidr_parser parser, ended;
    ANSWERS(HIDR_OK, hidr_parser_open(&parser));
    each_call_refuses(0, HIDR_NO_HANDLE, EITHER);
    each_call_refuses(UINT64_MAX, HIDR_NO_HANDLE, EITHER);
    each_call_refuses(descriptor ^ UINT64_C(1) << 63, HIDR_NO_HANDLE, EITHER);
    each_call_refuses(descriptor, HIDR_WRONG_KIND, DESCRIPTOR);
    each_call_refuses(parser, HIDR_WRONG_KIND, PARSER);
    /* A parser that is finished is closed, and the descriptor is open. */
    ended = parser;
    ANSWERS(HIDR_OK, hidr_parser_finish(parser, &finished, NULL));
    each_call_refuses(ended, HIDR_CLOSED, EITHER);
    ANSWERS(HIDR_OK, hidr_close(finished));
    each_call_refuses(finished, HIDR_CLOSED, EITHER);
    ANSWERS(HIDR_OK, hidr_close(descriptor));
    each_call_refuses(descriptor, HIDR_CLOSED, EITHER);
    /* Closed for ever, whatever is opened in its place. */
    for (int number = 0; number < 1000; number++) {
        hidr_descriptor next = parsed(KEYBOARD, sizeof KEYBOARD);
        CHECK(next != descriptor && next != finished && next != ended);
        each_call_refuses(descriptor, HIDR_CLOSED, EITHER);
        ANSWERS(HIDR_OK, hidr_close(next));
    }
}

static void null_pointers(void) {
    hidr_descriptor descriptor = parsed(KEYBOARD, sizeof KEYBOARD);
    hidr_parser parser;
    struct outputs to;
    FILL(to);
    ANSWERS(HIDR_OK, hidr_parser_open(&parser));
    ANSWERS(HIDR_NULL, hidr_parse(NULL, 1, &to.handle, &to.error));
    ANSWERS(HIDR_NULL, hidr_parse(KEYBOARD, 1, NULL, &to.error));
    ANSWERS(HIDR_NULL, hidr_parser_open(NULL));
    ANSWERS(HIDR_NULL, hidr_parser_feed(parser, NULL, 1, &to.error));
    ANSWERS(HIDR_NULL, hidr_parser_finish(parser, NULL, &to.error));
    ANSWERS(HIDR_NULL, hidr_field_count(descriptor, NULL));
    ANSWERS(HIDR_NULL, hidr_field_at(descriptor, 0, NULL));
    ANSWERS(HIDR_NULL, hidr_ranges(descriptor, 0, NULL, 1, &to.count));
    ANSWERS(HIDR_NULL, hidr_ranges(descriptor, 0, to.ranges, 1, NULL));
    ANSWERS(HIDR_NULL, hidr_usage_at(descriptor, 0, 0, NULL));
    ANSWERS(HIDR_NULL, hidr_uses_ids(descriptor, NULL));
    ANSWERS(HIDR_NULL, hidr_report_length(descriptor, 0, 0, NULL));
    ANSWERS(HIDR_NULL, hidr_extract(descriptor, NULL, 8, to.found, 2, &to.count));
    ANSWERS(HIDR_NULL, hidr_extract(descriptor, REPORT, 8, NULL, 2, &to.count));
    ANSWERS(HIDR_NULL, hidr_extract(descriptor, REPORT, 8, to.found, 2, NULL));
    ANSWERS(HIDR_NULL, hidr_pressed(descriptor, NULL, 8, to.usages, 2, &to.count));
    ANSWERS(HIDR_NULL, hidr_pressed(descriptor, REPORT, 8, NULL, 2, &to.count));
    ANSWERS(HIDR_NULL, hidr_pressed(descriptor, REPORT, 8, to.usages, 2, NULL));
    UNTOUCHED(to);
    ANSWERS(HIDR_OK, hidr_close(parser));
    ANSWERS(HIDR_OK, hidr_close(descriptor));
}

/* Null is told before a length, whichever pointer it is, and before a handle that is none. */
static void null_before_a_length(void) {
    hidr_descriptor descriptor = parsed(KEYBOARD, sizeof KEYBOARD);
    struct outputs to;
    FILL(to);
    ANSWERS(HIDR_NULL, hidr_extract(descriptor, NULL, 8, to.found, SIZE_MAX, &to.count));
    ANSWERS(HIDR_NULL, hidr_extract(descriptor, REPORT, SIZE_MAX, NULL, 2, &to.count));
    ANSWERS(HIDR_NULL, hidr_pressed(descriptor, NULL, 8, to.usages, SIZE_MAX, &to.count));
    ANSWERS(HIDR_NULL, hidr_pressed(descriptor, REPORT, SIZE_MAX, to.usages, SIZE_MAX, NULL));
    ANSWERS(HIDR_NULL, hidr_ranges(descriptor, 0, NULL, SIZE_MAX, &to.count));
    UNTOUCHED(to);
    ANSWERS(HIDR_NULL, hidr_field_count(0, NULL));
    ANSWERS(HIDR_NULL, hidr_parser_feed(0, NULL, 1, NULL));
    ANSWERS(HIDR_OK, hidr_close(descriptor));
}

/* A parser sees nothing of what was refused, and what has no length may be null. */
static void nothing_may_be_null(void) {
    hidr_descriptor descriptor = parsed(KEYBOARD, sizeof KEYBOARD);
    hidr_parser parser;
    struct outputs to;
    FILL(to);
    ANSWERS(HIDR_OK, hidr_parser_open(&parser));
    ANSWERS(HIDR_NULL, hidr_parser_feed(parser, NULL, 1, &to.error));
    ANSWERS(HIDR_OK, hidr_parser_feed(parser, NULL, 0, NULL));
    ANSWERS(HIDR_OK, hidr_parser_finish(parser, &to.handle, NULL));
    ANSWERS(HIDR_OK, hidr_field_count(to.handle, &to.count));
    CHECK(to.count == 0);
    ANSWERS(HIDR_OK, hidr_ranges(descriptor, 0, NULL, 0, &to.count));
    CHECK(to.count == 1);
    ANSWERS(HIDR_OK, hidr_extract(descriptor, REPORT, 8, NULL, 0, &to.count));
    CHECK(to.count == 8 + 1);
    ANSWERS(HIDR_EMPTY_REPORT, hidr_extract(descriptor, NULL, 0, NULL, 0, &to.count));
    ANSWERS(HIDR_OK, hidr_close(to.handle));
    ANSWERS(HIDR_OK, hidr_close(descriptor));
}

static void lengths(void) {
    const size_t long_ones[] = {SIZE_MAX, SIZE_MAX / 2 + 1};
    hidr_descriptor descriptor = parsed(KEYBOARD, sizeof KEYBOARD);
    hidr_parser parser;
    struct outputs to;
    FILL(to);
    ANSWERS(HIDR_OK, hidr_parser_open(&parser));
    for (size_t number = 0; number < 2; number++) {
        size_t size = long_ones[number];
        ANSWERS(HIDR_LENGTH, hidr_parse(KEYBOARD, size, &to.handle, &to.error));
        ANSWERS(HIDR_LENGTH, hidr_parser_feed(parser, KEYBOARD, size, &to.error));
        ANSWERS(HIDR_LENGTH, hidr_extract(descriptor, REPORT, size, to.found, 2, &to.count));
        ANSWERS(HIDR_LENGTH, hidr_pressed(descriptor, REPORT, size, to.usages, 2, &to.count));
        /* Of values that are more than a byte a fraction of that is too long. */
        ANSWERS(HIDR_LENGTH, hidr_ranges(descriptor, 0, to.ranges, size / sizeof(hidr_range) + 1, &to.count));
        ANSWERS(HIDR_LENGTH, hidr_extract(descriptor, REPORT, 8, to.found, size / sizeof(hidr_found) + 1, &to.count));
        ANSWERS(HIDR_LENGTH, hidr_pressed(descriptor, REPORT, 8, to.usages, size / sizeof(uint32_t) + 1, &to.count));
        /* A length is told before a handle. */
        ANSWERS(HIDR_LENGTH, hidr_parser_feed(0, KEYBOARD, size, &to.error));
    }
    UNTOUCHED(to);
    ANSWERS(HIDR_OK, hidr_close(parser));
    ANSWERS(HIDR_OK, hidr_close(descriptor));
}

static void texts(void) {
    static const uint8_t end[] = {0x05, 0x01, 0xc0}, cut[] = {0x05, 0x01, 0x26};
    static uint8_t too_long[4097];
    struct outputs to, blank;
    FILL(to);
    FILL(blank);
    ANSWERS(HIDR_FAULT, hidr_parse(end, sizeof end, &to.handle, &to.error));
    CHECK(to.error.fault == 8 && to.error.offset == 2 && strcmp(hidr_fault_name(8), "EndWithoutCollection") == 0);
    ANSWERS(HIDR_FAULT, hidr_parse(cut, sizeof cut, &to.handle, NULL));
    /* A text over 4,096 bytes is a text with a fault. */
    ANSWERS(HIDR_FAULT, hidr_parse(too_long, sizeof too_long, &to.handle, &to.error));
    CHECK(to.error.fault == 16 && to.error.offset == 4096 && strcmp(hidr_fault_name(16), "TooLong") == 0);
    to.error = blank.error;
    UNTOUCHED(to.handle);
}

/* In pieces: the fault at the piece that shows it, and then for ever. */
static void pieces(void) {
    static const uint8_t end[] = {0x05, 0x01, 0xc0};
    hidr_parser parser;
    struct outputs to;
    FILL(to);
    ANSWERS(HIDR_OK, hidr_parser_open(&parser));
    ANSWERS(HIDR_OK, hidr_parser_feed(parser, end, 2, &to.error));
    UNTOUCHED(to.error);
    for (int number = 0; number < 3; number++) {
        FILL(to);
        ANSWERS(HIDR_FAULT, hidr_parser_feed(parser, end + 2, 1, &to.error));
        CHECK(to.error.fault == 8 && to.error.offset == 2);
        FILL(to);
        ANSWERS(HIDR_FAULT, hidr_parser_finish(parser, &to.handle, &to.error));
        CHECK(to.error.fault == 8 && to.error.offset == 2);
        UNTOUCHED(to.handle);
        ANSWERS(HIDR_FAULT, hidr_parser_finish(parser, &to.handle, NULL));
    }
    ANSWERS(HIDR_OK, hidr_close(parser));
}

/* A text that ends too early is told at its end, and the parser is still open. */
static void cut_texts(void) {
    static const uint8_t cut[] = {0x05, 0x01, 0x26};
    hidr_parser parser;
    struct outputs to;
    FILL(to);
    ANSWERS(HIDR_OK, hidr_parser_open(&parser));
    ANSWERS(HIDR_OK, hidr_parser_feed(parser, cut, sizeof cut, &to.error));
    for (int number = 0; number < 2; number++) {
        ANSWERS(HIDR_FAULT, hidr_parser_finish(parser, &to.handle, &to.error));
        CHECK(to.error.fault == 1 && to.error.offset == 2);
        ANSWERS(HIDR_FAULT, hidr_parser_feed(parser, cut, 1, &to.error));
        CHECK(to.error.fault == 1 && to.error.offset == 2);
    }
    UNTOUCHED(to.handle);
    ANSWERS(HIDR_OK, hidr_close(parser));
    ANSWERS(HIDR_CLOSED, hidr_close(parser));
}

/* Places and reports that are not there. */
static void what_is_absent(void) {
    hidr_descriptor keyboard = parsed(KEYBOARD, sizeof KEYBOARD), ids = parsed(WITH_IDS, sizeof WITH_IDS);
    static const uint8_t unknown[] = {3, 0, 0}, too_short[] = {2, 1};
    struct outputs to;
    FILL(to);
    ANSWERS(HIDR_ABSENT, hidr_field_at(keyboard, 3, &to.field));
    ANSWERS(HIDR_ABSENT, hidr_field_at(keyboard, SIZE_MAX, &to.field));
    ANSWERS(HIDR_ABSENT, hidr_ranges(keyboard, 3, to.ranges, 2, &to.count));
    ANSWERS(HIDR_ABSENT, hidr_ranges(keyboard, SIZE_MAX, to.ranges, 2, &to.count));
    ANSWERS(HIDR_ABSENT, hidr_usage_at(keyboard, 3, 0, to.usages));
    ANSWERS(HIDR_ABSENT, hidr_usage_at(keyboard, 0, 8, to.usages));
    ANSWERS(HIDR_ABSENT, hidr_usage_at(keyboard, 2, 256, to.usages));
    ANSWERS(HIDR_ABSENT, hidr_usage_at(keyboard, 0, SIZE_MAX, to.usages));
    ANSWERS(HIDR_ABSENT, hidr_report_length(keyboard, HIDR_FEATURE, 0, &to.count));
    ANSWERS(HIDR_ABSENT, hidr_report_length(keyboard, HIDR_INPUT, 1, &to.count));
    ANSWERS(HIDR_ABSENT, hidr_report_length(keyboard, 3, 0, &to.count));
    ANSWERS(HIDR_ABSENT, hidr_report_length(keyboard, 255, 0, &to.count));
    ANSWERS(HIDR_EMPTY_REPORT, hidr_extract(keyboard, REPORT, 0, to.found, 2, &to.count));
    ANSWERS(HIDR_EMPTY_REPORT, hidr_pressed(keyboard, REPORT, 0, to.usages, 2, &to.count));
    ANSWERS(HIDR_SHORT_REPORT, hidr_extract(keyboard, REPORT, 6, to.found, 2, &to.count));
    ANSWERS(HIDR_SHORT_REPORT, hidr_pressed(keyboard, REPORT, 6, to.usages, 2, &to.count));
    ANSWERS(HIDR_UNKNOWN_ID, hidr_extract(ids, unknown, sizeof unknown, to.found, 2, &to.count));
    ANSWERS(HIDR_UNKNOWN_ID, hidr_pressed(ids, unknown, sizeof unknown, to.usages, 2, &to.count));
    ANSWERS(HIDR_SHORT_REPORT, hidr_extract(ids, too_short, sizeof too_short, to.found, 2, &to.count));
    UNTOUCHED(to);
    ANSWERS(HIDR_OK, hidr_close(keyboard));
    ANSWERS(HIDR_OK, hidr_close(ids));
}

static void what_is_there(void) {
    hidr_descriptor keyboard = parsed(KEYBOARD, sizeof KEYBOARD), ids = parsed(WITH_IDS, sizeof WITH_IDS);
    struct outputs to;
    FILL(to);
    ANSWERS(HIDR_OK, hidr_usage_at(keyboard, 0, 7, to.usages));
    CHECK(to.usages[0] == 0x000700e7);
    ANSWERS(HIDR_OK, hidr_usage_at(keyboard, 2, 255, to.usages));
    CHECK(to.usages[0] == 0x000700ff);
    ANSWERS(HIDR_OK, hidr_report_length(keyboard, HIDR_OUTPUT, 0, &to.count));
    CHECK(to.count == 1);
    ANSWERS(HIDR_OK, hidr_report_length(ids, HIDR_INPUT, 2, &to.count));
    CHECK(to.count == 3);
    ANSWERS(HIDR_OK, hidr_uses_ids(ids, &to.flag));
    CHECK(to.flag == 1);
    ANSWERS(HIDR_OK, hidr_uses_ids(keyboard, &to.flag));
    CHECK(to.flag == 0);
    ANSWERS(HIDR_OK, hidr_field_at(ids, 1, &to.field));
    CHECK(to.field.kind == HIDR_INPUT && to.field.id == 2 && to.field.bit == 0 && to.field.size == 8 && to.field.count == 2 &&
          to.field.min == -127 && to.field.max == 127 && to.field.array == 0);
    ANSWERS(HIDR_OK, hidr_close(keyboard));
    ANSWERS(HIDR_OK, hidr_close(ids));
}

/* Bytes behind a report are ignored, and what there is no room for is counted and not written. */
static void less_room(void) {
    static const uint8_t whole[] = {2, 1, 0xff, 9};
    hidr_descriptor ids = parsed(WITH_IDS, sizeof WITH_IDS);
    struct outputs to;
    FILL(to);
    ANSWERS(HIDR_OK, hidr_extract(ids, whole, sizeof whole, to.found, 1, &to.count));
    CHECK(to.count == 2 && to.found[0].usage == 0x00010030 && to.found[0].value == 1);
    UNTOUCHED(to.found[1]);
    ANSWERS(HIDR_OK, hidr_extract(ids, whole, sizeof whole, to.found, 2, &to.count));
    CHECK(to.count == 2 && to.found[1].usage == 0x00010031 && to.found[1].value == -1);
    FILL(to);
    ANSWERS(HIDR_OK, hidr_pressed(ids, whole, sizeof whole, to.usages, 1, &to.count));
    CHECK(to.count == 2 && to.usages[0] == 0x00010030);
    UNTOUCHED(to.usages[1]);
    FILL(to);
    ANSWERS(HIDR_OK, hidr_ranges(ids, 0, to.ranges, 1, &to.count));
    CHECK(to.count == 4 && to.ranges[0].first == 0x000c00b5 && to.ranges[0].last == 0x000c00b5);
    UNTOUCHED(to.ranges[1]);
    ANSWERS(HIDR_OK, hidr_close(ids));
}

static void full_table(void) {
    hidr_parser parsers[HIDR_HANDLES];
    struct outputs to;
    FILL(to);
    for (size_t number = 0; number < HIDR_HANDLES; number++)
        ANSWERS(HIDR_OK, hidr_parser_open(&parsers[number]));
    ANSWERS(HIDR_FULL, hidr_parser_open(&to.handle));
    ANSWERS(HIDR_FULL, hidr_parse(KEYBOARD, sizeof KEYBOARD, &to.handle, &to.error));
    UNTOUCHED(to);
    /* A fault is told before that. */
    ANSWERS(HIDR_FAULT, hidr_parse(KEYBOARD, 5, &to.handle, &to.error));
    UNTOUCHED(to.handle);
    /* All are open still, and a parser can be finished in its place. */
    for (size_t number = 0; number < HIDR_HANDLES; number++)
        ANSWERS(HIDR_OK, hidr_parser_feed(parsers[number], KEYBOARD, sizeof KEYBOARD, NULL));
    ANSWERS(HIDR_OK, hidr_parser_finish(parsers[0], &to.handle, NULL));
    ANSWERS(HIDR_OK, hidr_field_count(to.handle, &to.count));
    CHECK(to.count == 3);
    ANSWERS(HIDR_OK, hidr_close(to.handle));
    ANSWERS(HIDR_OK, hidr_parser_open(&parsers[0]));
    for (size_t number = 0; number < HIDR_HANDLES; number++)
        ANSWERS(HIDR_OK, hidr_close(parsers[number]));
}

/* Pointers need no alignment, and what they point to may overlap. */
static void anywhere(void) {
    unsigned char bytes[64];
    hidr_descriptor descriptor;
    hidr_field field;
    uint32_t on[3];
    size_t count;
    memcpy(bytes + 1, KEYBOARD, sizeof KEYBOARD);
    ANSWERS(HIDR_OK, hidr_parse(bytes + 1, sizeof KEYBOARD, (hidr_descriptor *)(void *)(bytes + 1), (hidr_error *)(void *)bytes));
    memcpy(&descriptor, bytes + 1, sizeof descriptor);
    ANSWERS(HIDR_OK, hidr_field_at(descriptor, 0, (hidr_field *)(void *)(bytes + 3)));
    memcpy(&field, bytes + 3, sizeof field);
    CHECK(field.size == 1 && field.count == 8 && field.array == 0);
    /* The usages are written over the report that they were read from. */
    memcpy(bytes + 5, REPORT, sizeof REPORT);
    bytes[5 + 3] = 5;
    ANSWERS(HIDR_OK, hidr_pressed(descriptor, bytes + 5, sizeof REPORT, (uint32_t *)(void *)(bytes + 5), 3,
                                  (size_t *)(void *)(bytes + 33)));
    memcpy(on, bytes + 5, sizeof on);
    memcpy(&count, bytes + 33, sizeof count);
    CHECK(count == 3 && on[0] == 0x00070004 && on[1] == 0x00070005 && on[2] == 0x000700e1);
    ANSWERS(HIDR_OK, hidr_close(descriptor));
}

static void names(void) {
    static const uint32_t no_faults[] = {0, 18, 256 + 8, UINT32_MAX};
    static const int32_t no_statuses[] = {-1, 30, INT32_MAX, INT32_MIN};
    for (size_t number = 0; number < 4; number++)
        CHECK(*hidr_fault_name(no_faults[number]) == 0 && *hidr_status_name(no_statuses[number]) == 0);
    for (uint32_t fault = 1; fault <= 17; fault++)
        CHECK(*hidr_fault_name(fault) != 0);
    CHECK(strcmp(hidr_fault_name(1), "Truncated") == 0 && strcmp(hidr_fault_name(17), "Memory") == 0);
    CHECK(strcmp(hidr_status_name(HIDR_OK), "Ok") == 0 && strcmp(hidr_status_name(HIDR_SHORT_REPORT), "ShortReport") == 0);
    CHECK(strcmp(hidr_status_name(HIDR_UNKNOWN_REPORT), "UnknownReport") == 0 && strcmp(hidr_status_name(HIDR_OVERLAP), "Overlap") == 0);
}

int main(void) {
    _Static_assert(sizeof(hidr_error) == 16 && sizeof(hidr_range) == 8 && sizeof(hidr_found) == 16, "as in src/calls.rs");
    _Static_assert(sizeof(hidr_field) == 32, "as in src/calls.rs");
    CHECK(free_handles() == HIDR_HANDLES);
    handles();
    null_pointers();
    null_before_a_length();
    nothing_may_be_null();
    lengths();
    texts();
    pieces();
    cut_texts();
    what_is_absent();
    what_is_there();
    less_room();
    full_table();
    anywhere();
    names();
    CHECK(free_handles() == HIDR_HANDLES);
    puts("each refusal by its own status, and nothing was touched");
    return 0;
}
