// SPDX-License-Identifier: MIT OR Apache-2.0
/* fuzz ROUNDS SEED FILE..: calls at random, right ones and wrong ones, on texts at random and on changed ones of these files,
 * beside a model of what is open. What is read and written stands at the end of the memory, so that a byte too many is told. */
#include "check.h"

#define TEXT_MAX 4300
#define VALUES 64

enum kind { FREE, PARSER, DESCRIPTOR };
/* What is open: a parser with what it was fed, or a descriptor with its text. */
static struct open {
    enum kind kind;
    uint64_t handle;
    uint8_t text[TEXT_MAX];
    size_t length;
    hidr_status refused;
    hidr_error error;
} opened[HIDR_HANDLES];
static size_t open_count, calls, refusals[13];
static uint64_t closed[1024], closings;

static uint8_t *input, *output; /* the ends of the memory of texts and reports, and of what is written */
static struct {
    uint8_t bytes[TEXT_MAX];
    size_t length;
} files[32];
static size_t file_count;

static uint64_t state;
static uint64_t below(uint64_t limit) {
    state ^= state << 13;
    state ^= state >> 7;
    state ^= state << 17;
    return (state >> 11) % limit;
}

/* Bytes at the end of the memory: those of a file, changed in a few places, or none of any file. */
static size_t some_text(uint8_t **start) {
    size_t length = below(4) ? below(80) : below(TEXT_MAX), place = below(file_count + 1);
    if (place < file_count)
        length = files[place].length;
    *start = input - length;
    for (size_t at = 0; at < length; at++)
        (*start)[at] = place < file_count ? files[place].bytes[at] : (uint8_t)below(256);
    for (uint64_t changes = below(4); place < file_count && length > 0 && changes > 0; changes--)
        (*start)[below(length)] = (uint8_t)below(256);
    return length;
}

static struct open *one_of(enum kind kind) {
    for (size_t number = below(HIDR_HANDLES), tries = 0; tries < HIDR_HANDLES; tries++, number = (number + 1) % HIDR_HANDLES)
        if (opened[number].kind == kind)
            return &opened[number];
    return NULL;
}

static void took(hidr_status status) { calls++, refusals[status]++; }

static struct open *keep(enum kind kind, uint64_t handle, const uint8_t *text, size_t length) {
    struct open *place = one_of(FREE);
    for (size_t number = 0; number < HIDR_HANDLES; number++)
        CHECK(opened[number].kind == FREE || opened[number].handle != handle);
    *place = (struct open){.kind = kind, .handle = handle, .length = length};
    memcpy(place->text, text, length);
    open_count++;
    return place;
}

static void let_go(struct open *which) {
    closed[closings++ % 1024] = which->handle;
    which->kind = FREE;
    open_count--;
}

/* Two descriptors are the same where all that can be asked of them is. */
static void are_the_same(hidr_descriptor one, hidr_descriptor other) {
    size_t count, others, bytes, more;
    ANSWERS(HIDR_OK, hidr_field_count(one, &count));
    ANSWERS(HIDR_OK, hidr_field_count(other, &others));
    CHECK(count == others);
    for (size_t number = 0; number < count; number++) {
        hidr_field field = {0}, as = {0};
        hidr_range ranges[8], of[8];
        ANSWERS(HIDR_OK, hidr_field_at(one, number, &field));
        ANSWERS(HIDR_OK, hidr_field_at(other, number, &as));
        CHECK(field.bit == as.bit && field.min == as.min && field.max == as.max && field.count == as.count &&
              field.kind == as.kind && field.id == as.id && field.size == as.size && field.array == as.array);
        ANSWERS(HIDR_OK, hidr_ranges(one, number, ranges, 8, &bytes));
        ANSWERS(HIDR_OK, hidr_ranges(other, number, of, 8, &more));
        CHECK(bytes == more && memcmp(ranges, of, (bytes < 8 ? bytes : 8) * sizeof ranges[0]) == 0);
        ANSWERS(HIDR_OK, hidr_report_length(one, field.kind, field.id, &bytes));
        ANSWERS(HIDR_OK, hidr_report_length(other, field.kind, field.id, &more));
        CHECK(bytes == more);
    }
}

/* What a text in pieces came to is what the whole comes to. `finished` is 0 where it was refused. */
static void is_as_whole(struct open *parser, hidr_status status, hidr_error error, hidr_descriptor finished) {
    hidr_descriptor whole = 0;
    hidr_error its = {0};
    hidr_status as = hidr_parse(parser->text, parser->length, &whole, &its);
    if (as == HIDR_FULL)
        return;
    ANSWERS(as, status);
    CHECK(as != HIDR_FAULT || (its.fault == error.fault && its.offset == error.offset));
    if (as != HIDR_OK)
        return;
    are_the_same(whole, finished);
    ANSWERS(HIDR_OK, hidr_close(whole));
}

static void parse_whole(void) {
    uint8_t *text;
    size_t length = some_text(&text);
    hidr_descriptor descriptor;
    hidr_error error;
    FILL(descriptor);
    FILL(error);
    hidr_status status = hidr_parse(text, length, &descriptor, below(4) ? &error : NULL);
    took(status);
    CHECK(status == HIDR_OK || status == HIDR_FAULT || status == HIDR_FULL);
    CHECK((status == HIDR_FULL) <= (open_count == HIDR_HANDLES) && (status == HIDR_OK) <= (open_count < HIDR_HANDLES));
    if (status == HIDR_OK)
        keep(DESCRIPTOR, descriptor, text, length);
    else
        UNTOUCHED(descriptor);
    if (status != HIDR_FAULT)
        UNTOUCHED(error);
}

static void open_parser(void) {
    hidr_parser parser;
    FILL(parser);
    hidr_status status = hidr_parser_open(&parser);
    took(status);
    ANSWERS(open_count < HIDR_HANDLES ? HIDR_OK : HIDR_FULL, status);
    if (status == HIDR_OK)
        keep(PARSER, parser, input, 0);
    else
        UNTOUCHED(parser);
}

/* A piece: at random, or the next part of a text that begins with what the parser was fed. */
static void feed(void) {
    struct open *parser = one_of(PARSER);
    uint8_t *text;
    size_t length = some_text(&text), place = below(file_count + 1);
    hidr_error error;
    if (parser == NULL)
        return;
    if (place < file_count && files[place].length >= parser->length) {
        length = below(files[place].length - parser->length + 1);
        text = input - length;
        memcpy(text, files[place].bytes + parser->length, length);
    }
    if (length > TEXT_MAX - parser->length)
        length = TEXT_MAX - parser->length, text = input - length;
    FILL(error);
    hidr_status status = hidr_parser_feed(parser->handle, text, length, &error);
    took(status);
    if (parser->refused != HIDR_OK) {
        ANSWERS(parser->refused, status);
        CHECK(error.fault == parser->error.fault && error.offset == parser->error.offset);
        return;
    }
    memcpy(parser->text + parser->length, text, length);
    parser->length += length;
    if (status == HIDR_OK) {
        UNTOUCHED(error);
        return;
    }
    parser->refused = status, parser->error = error;
    is_as_whole(parser, status, error, 0);
}

static void finish(void) {
    struct open *parser = one_of(PARSER);
    hidr_descriptor descriptor;
    hidr_error error;
    if (parser == NULL)
        return;
    FILL(descriptor);
    FILL(error);
    hidr_status status = hidr_parser_finish(parser->handle, &descriptor, &error);
    took(status);
    if (parser->refused != HIDR_OK)
        CHECK(status == parser->refused && error.fault == parser->error.fault && error.offset == parser->error.offset);
    is_as_whole(parser, status, error, descriptor);
    if (status == HIDR_OK) {
        struct open was = *parser;
        let_go(parser);
        keep(DESCRIPTOR, descriptor, was.text, was.length);
    } else {
        UNTOUCHED(descriptor);
        parser->refused = status, parser->error = error;
    }
}

static void close_one(void) {
    struct open *which = one_of(below(2) ? PARSER : DESCRIPTOR);
    if (which == NULL)
        return;
    hidr_status status = hidr_close(which->handle);
    took(status);
    ANSWERS(HIDR_OK, status);
    let_go(which);
}

/* Why a report of this length has to be refused, by what the descriptor says of lengths. */
static hidr_status why_refused(hidr_descriptor descriptor, const uint8_t *report, size_t length) {
    uint8_t ids;
    size_t bytes;
    ANSWERS(HIDR_OK, hidr_uses_ids(descriptor, &ids));
    if (length == 0)
        return HIDR_EMPTY_REPORT;
    if (hidr_report_length(descriptor, HIDR_INPUT, ids ? report[0] : 0, &bytes) == HIDR_ABSENT)
        return ids ? HIDR_UNKNOWN_ID : HIDR_OK;
    return length < bytes ? HIDR_SHORT_REPORT : HIDR_OK;
}

/* Whether a usage is one of those that are read with a value that isn't 0. */
static int is_on(const hidr_found *found, size_t count, uint32_t usage) {
    while (count > 0 && (found[count - 1].usage != usage || found[count - 1].value == 0))
        count--;
    return count > 0;
}

static void read_report(void) {
    static hidr_found found[256 * 1024];
    struct open *which = one_of(DESCRIPTOR);
    size_t length = below(40), room = below(VALUES), count, on_count;
    uint8_t *report = input - length;
    if (which == NULL)
        return;
    for (size_t at = 0; at < length; at++)
        report[at] = at == 0 ? (uint8_t)below(5) : (uint8_t)below(256);
    hidr_status wanted = why_refused(which->handle, report, length);
    uint32_t *on = (uint32_t *)(output - room * sizeof *on);
    FILL(count);
    hidr_status status = hidr_pressed(which->handle, report, length, on, room, &count);
    took(status);
    ANSWERS(wanted, status);
    on_count = count;
    if (status != HIDR_OK)
        UNTOUCHED(count);
    status = hidr_extract(which->handle, report, length, found, sizeof found / sizeof found[0], &count);
    took(status);
    ANSWERS(wanted, status);
    if (status != HIDR_OK)
        return;
    CHECK(count <= sizeof found / sizeof found[0]);
    for (size_t number = 0; number < room && number < on_count; number++)
        CHECK(is_on(found, count, on[number]) && (number == 0 || on[number - 1] < on[number]));
}

static void ask(void) {
    struct open *which = one_of(DESCRIPTOR);
    size_t count, ranges, field = below(8), place = below(300), room = below(VALUES);
    hidr_range *into = (hidr_range *)(output - room * sizeof *into);
    hidr_field about;
    uint32_t usage;
    if (which == NULL)
        return;
    ANSWERS(HIDR_OK, hidr_field_count(which->handle, &count));
    hidr_status status = hidr_ranges(which->handle, field, into, room, &ranges);
    took(status);
    ANSWERS(field < count ? HIDR_OK : HIDR_ABSENT, status);
    ANSWERS(status, hidr_field_at(which->handle, field, &about));
    status = hidr_usage_at(which->handle, field, place, &usage);
    took(status);
    CHECK(status == HIDR_ABSENT || (field < count && ranges > 0 && (about.array || place < about.count)));
}

/* A call with a handle that is wrong, or with none of the memory that it needs. */
static void misuse(void) {
    uint64_t handle = below(3) ? closed[below(1024)] : below(2) ? below(1 << 16) : (UINT64_C(1) << 63 | below(1 << 20));
    hidr_status wanted = handle == 0 || handle < 1 << 16 || handle >> 63 ? HIDR_NO_HANDLE : HIDR_CLOSED;
    struct open *other = one_of(PARSER);
    hidr_descriptor descriptor;
    hidr_field field;
    size_t count;
    FILL(descriptor);
    FILL(field);
    FILL(count);
    if (below(4) == 0 && other != NULL)
        handle = other->handle, wanted = HIDR_WRONG_KIND;
    else
        ANSWERS(wanted, hidr_close(handle));
    took(wanted);
    ANSWERS(wanted, hidr_field_at(handle, below(3), &field));
    ANSWERS(wanted, hidr_pressed(handle, input - 1, 1, NULL, 0, &count));
    ANSWERS(HIDR_NULL, hidr_extract(handle, NULL, 1 + below(9), NULL, 0, &count));
    ANSWERS(HIDR_LENGTH, hidr_parser_feed(handle, input - 1, SIZE_MAX - below(1000), NULL));
    ANSWERS(HIDR_LENGTH, hidr_ranges(handle, 0, (hidr_range *)(output - 8), SIZE_MAX / 8 + below(1000) - 500, &count));
    took(HIDR_NULL), took(HIDR_LENGTH);
    if (wanted != HIDR_WRONG_KIND)
        ANSWERS(wanted, hidr_parser_finish(handle, &descriptor, NULL));
    UNTOUCHED(descriptor);
    UNTOUCHED(field);
    UNTOUCHED(count);
}

static void read_files(int count, char **names) {
    for (int number = 0; number < count && file_count < 32; number++) {
        FILE *file = fopen(names[number], "rb");
        CHECK(file != NULL);
        files[file_count].length = fread(files[file_count].bytes, 1, TEXT_MAX, file);
        file_count++;
        fclose(file);
    }
}

int main(int argc, char **argv) {
    static void (*const calls_of[])(void) = {parse_whole, open_parser, feed, feed, feed, finish, close_one, read_report, ask, misuse};
    CHECK(argc > 3);
    read_files(argc - 3, argv + 3);
    state = strtoull(argv[2], NULL, 10) * 2 + 1;
    input = room_at_the_end(TEXT_MAX) + TEXT_MAX;
    output = room_at_the_end(VALUES * 8) + VALUES * 8;
    for (long rounds = strtol(argv[1], NULL, 10); rounds > 0; rounds--) {
        void (*call)(void) = calls_of[below(10)];
        /* Now and then nothing is closed for a while, so that the table gets full. */
        if (call != close_one || rounds / 2000 % 2)
            call();
    }
    for (size_t number = 0; number < HIDR_HANDLES; number++)
        if (opened[number].kind != FREE)
            ANSWERS(HIDR_OK, hidr_close(opened[number].handle));
    CHECK(free_handles() == HIDR_HANDLES);
    fprintf(stderr, "%zu calls", calls);
    for (int status = 0; status < 13; status++)
        fprintf(stderr, ", %s %zu", hidr_status_name(status), refusals[status]);
    fprintf(stderr, "\n");
    for (int status = 0; status < 13; status++)
        CHECK(refusals[status] > 0 || status == HIDR_NO_MEMORY);
    puts("calls at random: each answered as it has to be");
    return 0;
}
