// SPDX-License-Identifier: MIT OR Apache-2.0
/* Tells what the library makes of descriptors and reports, a line for a line of standard input, as tests/reader/tell does:
 * tests/test_reader.py compares both with a program in Python. What the calls write stands at the end of the memory. */
#include "check.h"

#include <inttypes.h>

#define MOST 2048
#define BYTES (1 << 20)
#define PLACES (1 << 18) /* 256 fields of 1,024 */

static const char *const kinds[] = {"input", "output", "feature"};
static hidr_reader reader;
static uint8_t *text_end, *report_end; /* the ends of the memory of texts and of reports */
static size_t text_length;

static int digit(char letter) { return letter >= 'a' ? letter - 'a' + 10 : letter - '0'; }

/* The bytes of a text in hex, up to a blank or point. */
static size_t bytes_of(const char *hex, uint8_t *bytes) {
    size_t count = 0;
    for (; hex[2 * count] != 0 && hex[2 * count] != ' ' && hex[2 * count] != '.'; count++) {
        CHECK(count < BYTES);
        bytes[count] = (uint8_t)(digit(hex[2 * count]) * 16 + digit(hex[2 * count + 1]));
    }
    return count;
}

static uint8_t kind_of(const char *word) { return word[0] == 'i' ? HIDR_INPUT : word[0] == 'o' ? HIDR_OUTPUT : HIDR_FEATURE; }

static void print_place(uint32_t place) {
    if (place == HIDR_NONE)
        printf("-");
    else
        printf("%" PRIu32, place);
}

static void print_collections(void) {
    size_t count;
    hidr_collection found;
    ANSWERS(HIDR_OK, hidr_collection_count(reader, &count));
    ANSWERS(HIDR_ABSENT, hidr_collection_at(reader, count, &found));
    for (size_t number = 0; number < count; number++) {
        ANSWERS(HIDR_OK, hidr_collection_at(reader, number, &found));
        printf("collection %" PRIu64 " %" PRIu32 " ", found.offset, found.type);
        CHECK(found.has_usage || found.usage == 0);
        if (found.has_usage)
            printf("%" PRIu32 " ", found.usage);
        else
            printf("- ");
        print_place(found.outer);
        printf(";");
    }
}

static void print_applications(const hidr_report *report) {
    static uint32_t applications[MOST];
    size_t count;
    ANSWERS(HIDR_OK, hidr_applications_of(reader, report->kind, report->id, applications, MOST, &count));
    for (size_t at = 0; at < count; at++)
        printf("%s%" PRIu32, at > 0 ? "," : "", applications[at]);
}

static void print_report(const hidr_report *report) {
    static uint32_t places[MOST];
    size_t bytes, items;
    ANSWERS(HIDR_OK, hidr_report_length(reader, report->kind, report->id, &bytes));
    CHECK(bytes == report->bytes);
    ANSWERS(HIDR_OK, hidr_report_details(reader, report->kind, report->id, places, MOST, &items));
    CHECK(items > 0);
    printf("report %s %u %" PRIu64 " %" PRIu64 " ", kinds[report->kind], report->id, report->bits, (report->bits + 7) / 8);
    for (size_t at = 0; at < items; at++)
        printf("%s%" PRIu32, at > 0 ? "," : "", places[at]);
    printf(" ");
    print_applications(report);
    printf(";");
}

/* The data items that are padding, or those that are none. */
static void print_places(const char *name, uint32_t constant) {
    size_t count;
    const char *before = "";
    ANSWERS(HIDR_OK, hidr_detail_count(reader, &count));
    printf("%s ", name);
    for (size_t number = 0; number < count; number++) {
        hidr_detail told;
        ANSWERS(HIDR_OK, hidr_detail_at(reader, number, &told));
        if ((told.flags & HIDR_CONSTANT) == constant) {
            printf("%s%zu", before, number);
            before = ",";
        }
    }
    printf(";");
}

static void print_reports(void) {
    static uint32_t applications[MOST];
    static hidr_report reports[MOST];
    size_t count, its;
    ANSWERS(HIDR_OK, hidr_applications(reader, applications, MOST, &count));
    for (size_t number = 0; number < count && number < MOST; number++) {
        ANSWERS(HIDR_OK, hidr_reports_of(reader, applications[number], reports, MOST, &its));
        printf("application %" PRIu32 " ", applications[number]);
        for (size_t at = 0; at < its; at++)
            printf("%s%s:%u", at > 0 ? "," : "", kinds[reports[at].kind], reports[at].id);
        printf(";");
    }
    ANSWERS(HIDR_OK, hidr_reports(reader, reports, MOST, &its));
    for (size_t at = 0; at < its; at++)
        print_report(&reports[at]);
    print_places("padding", HIDR_CONSTANT);
    print_places("data", 0);
}

static void print_names(size_t item, hidr_status (*names)(hidr_reader, size_t, hidr_range *, size_t, size_t *)) {
    hidr_range ranges[MOST];
    size_t count;
    ANSWERS(HIDR_OK, names(reader, item, ranges, MOST, &count));
    for (size_t at = 0; at < count; at++)
        printf("%s%" PRIu32 ":%" PRIu32, at > 0 ? "," : "", ranges[at].first, ranges[at].last);
    printf(" ");
}

static void print_items(void) {
    size_t count, fields = 0, item;
    ANSWERS(HIDR_OK, hidr_detail_count(reader, &count));
    for (size_t number = 0; number < count; number++) {
        hidr_detail told;
        uint32_t around[16];
        int8_t exponents[6];
        ANSWERS(HIDR_OK, hidr_detail_at(reader, number, &told));
        printf("%" PRIu64 " %s %" PRIu32 " %u %" PRIu64 " %" PRIu32 " %" PRIu32 " %" PRId64 " %" PRId64 " %" PRId64 " %" PRId64
               " %" PRIu32 " %" PRId64 " ",
               told.offset, kinds[told.kind], told.flags, told.id, told.bit, told.size, told.count, told.min, told.max,
               told.physical_min, told.physical_max, told.unit, told.exponent);
        size_t depth;
        ANSWERS(HIDR_OK, hidr_around(reader, number, around, 16, &depth));
        for (size_t at = 0; at < depth; at++)
            printf("%s%" PRIu32, at > 0 ? "," : "", around[at]);
        CHECK(told.collection == (depth > 0 ? around[depth - 1] : HIDR_NONE));
        printf(" ");
        print_place(told.application);
        printf(" ");
        print_names(number, hidr_strings);
        print_names(number, hidr_designators);
        hidr_status status = hidr_unit_exponents(reader, number, exponents);
        if (status == HIDR_OK)
            printf("%d,%d,%d,%d,%d,%d;", exponents[0], exponents[1], exponents[2], exponents[3], exponents[4], exponents[5]);
        else
            printf("%s;", status == HIDR_VENDOR_SYSTEM ? "Vendor" : hidr_status_name(status));
        if (told.flags & HIDR_CONSTANT) {
            CHECK(told.field == HIDR_NONE);
            continue;
        }
        CHECK(told.field == fields);
        ANSWERS(HIDR_OK, hidr_detail_of(reader, fields++, &item));
        CHECK(item == number);
    }
    ANSWERS(HIDR_ABSENT, hidr_detail_of(reader, fields, &item));
}

static void tell_descriptor(const char *hex) {
    static uint8_t bytes[BYTES];
    hidr_error error;
    if (reader != 0)
        ANSWERS(HIDR_OK, hidr_close(reader));
    reader = 0;
    text_length = bytes_of(hex, bytes);
    memcpy(text_end - text_length, bytes, text_length);
    hidr_status status = hidr_reader_open(text_end - text_length, text_length, &reader, &error);
    if (status == HIDR_FAULT) {
        printf("fault %" PRIu32 " %" PRIu64, error.fault, error.offset);
        return;
    }
    ANSWERS(HIDR_OK, status);
    print_collections();
    print_reports();
    print_items();
}

/* The fields of a reader, with their usages and the lengths of their reports. */
static void print_fields(hidr_reader read) {
    static hidr_range ranges[MOST];
    size_t fields, count, bytes;
    hidr_field field;
    ANSWERS(HIDR_OK, hidr_field_count(read, &fields));
    for (size_t at = 0; at < fields; at++) {
        ANSWERS(HIDR_OK, hidr_field_at(read, at, &field));
        ANSWERS(HIDR_OK, hidr_ranges(read, at, ranges, MOST, &count));
        ANSWERS(HIDR_OK, hidr_report_length(read, field.kind, field.id, &bytes));
        CHECK(count <= MOST);
        printf(";%s (%u, %" PRIu64 ", %u, %u, %" PRId64 ", %" PRId64 ", %s) [", kinds[field.kind], field.id, field.bit, field.size,
               field.count, field.min, field.max, field.array ? "true" : "false");
        for (size_t range = 0; range < count; range++)
            printf("%s(%" PRIu32 ", %" PRIu32 ")", range > 0 ? ", " : "", ranges[range].first, ranges[range].last);
        printf("] %zu", bytes);
    }
}

static void tell_lenient(const char *hex) {
    static uint8_t bytes[BYTES];
    static hidr_error passed[MOST];
    hidr_error error;
    hidr_reader read;
    size_t length = bytes_of(hex, bytes), count;
    memcpy(text_end - length, bytes, length);
    hidr_status status = hidr_reader_open_lenient(text_end - length, length, &read, &error, passed, MOST, &count);
    if (status == HIDR_FAULT) {
        printf("fault %" PRIu32 " %" PRIu64, error.fault, error.offset);
        return;
    }
    ANSWERS(HIDR_OK, status);
    CHECK(count <= MOST);
    for (size_t at = 0; at < count; at++)
        printf("%" PRIu32 ":%" PRIu64 ",", passed[at].fault, passed[at].offset);
    print_fields(read);
    ANSWERS(HIDR_OK, hidr_close(read));
}

/* A value is that which is so much, where the power of ten is one that the fraction can take in. */
static void goes_back(const hidr_value *value, hidr_fraction exact) {
    hidr_detail detail;
    int64_t raw;
    ANSWERS(HIDR_OK, hidr_detail_at(reader, value->item, &detail));
    if (exact.exponent < -18 || exact.exponent > 18)
        return;
    for (; exact.exponent > 0 && exact.numerator <= INT64_MAX / 10 && exact.numerator >= INT64_MIN / 10; exact.exponent--)
        exact.numerator *= 10;
    for (; exact.exponent < 0 && exact.denominator <= INT64_MAX / 10; exact.exponent++)
        exact.denominator *= 10;
    if (exact.exponent != 0)
        return;
    hidr_status status = hidr_value_of(reader, value->field, exact.numerator, (uint64_t)exact.denominator, &raw);
    if (value->raw < detail.min || value->raw > detail.max || detail.physical_min == detail.physical_max)
        CHECK(status == HIDR_NO_STEP);
    else
        CHECK(status == HIDR_OK && raw == value->raw);
}

static void print_value(const hidr_value *value) {
    static const char *const within[] = {"range", "null", "out"};
    hidr_fraction exact;
    char decimal[64];
    size_t length, item;
    ANSWERS(HIDR_OK, hidr_detail_of(reader, value->field, &item));
    CHECK(value->item == item);
    printf("%" PRIu32 " %u ", value->field, value->place);
    if (value->has_usage)
        printf("%" PRIu32, value->usage);
    else
        printf("-");
    printf(" %" PRId64 " %s ", value->raw, within[value->within]);
    hidr_status status = hidr_physical(reader, value->field, value->raw, &exact);
    if (status == HIDR_OK) {
        goes_back(value, exact);
        printf("%" PRId64 "/%" PRId64 " ", exact.numerator, exact.denominator);
    }
    if (status == HIDR_EQUAL_LIMITS || status == HIDR_INVERTED_LIMITS) {
        printf("%s;", hidr_status_name(status));
        return;
    }
    if (status != HIDR_OK)
        printf("%s ", hidr_status_name(status));
    ANSWERS(HIDR_OK, hidr_decimal(reader, value->field, value->raw, 5, decimal, sizeof decimal, &length));
    CHECK(length == strlen(decimal));
    printf("%s;", decimal);
}

static void tell_values(const char *words) {
    static hidr_value values[PLACES];
    static uint8_t report[BYTES];
    const char *hex = strchr(words, ' ');
    size_t length = hex ? bytes_of(hex + 1, report) : 0, count, rest;
    uint8_t *at_end = memcpy(report_end - length, report, length);
    hidr_status status = hidr_read(reader, kind_of(words), at_end, length, values, PLACES, &count, &rest);
    if (status != HIDR_OK) {
        printf("%s", status == HIDR_EMPTY_REPORT ? "Empty" : status == HIDR_SHORT_REPORT ? "Short" : hidr_status_name(status));
        return;
    }
    CHECK(count <= PLACES);
    for (size_t at = 0; at < count; at++)
        print_value(&values[at]);
}

/* A setting as `usage:65584:0=5` or `field:2:0=null`. */
static hidr_setting setting_of(const char *word) {
    hidr_setting made = {0};
    char *behind;
    made.by = word[0] == 'u' ? HIDR_BY_USAGE : HIDR_BY_FIELD;
    made.control = (uint32_t)strtoul(strchr(word, ':') + 1, &behind, 10);
    made.place = (uint32_t)strtoul(behind + 1, &behind, 10);
    made.null = behind[1] == 'n';
    made.value = made.null ? 0 : strtoll(behind + 1, NULL, 10);
    return made;
}

static void print_refusal(hidr_status status, size_t which) {
    static const struct {
        hidr_status status;
        const char *name;
        int numbered;
    } names[] = {{HIDR_UNKNOWN_REPORT, "unknown-report", 0}, {HIDR_SHORT_REPORT, "short", 0},     {HIDR_OTHER_ID, "other-id", 0},
                 {HIDR_NO_UNUSED, "no-unused", 1},           {HIDR_UNKNOWN_CONTROL, "unknown", 1}, {HIDR_TWICE, "twice", 1},
                 {HIDR_NO_NULL, "no-null", 1},               {HIDR_TOO_LARGE, "too-large", 1},     {HIDR_OUT_OF_RANGE, "out-of-range", 1},
                 {HIDR_NO_ROOM, "no-room", 1}};
    for (size_t at = 0; at < sizeof names / sizeof names[0]; at++)
        if (names[at].status == status) {
            printf("%s", names[at].name);
            if (names[at].numbered)
                printf(" %zu", which);
            return;
        }
    printf("%s", hidr_status_name(status));
}

static void tell_written(char *words) {
    static uint8_t given[BYTES], report[BYTES];
    hidr_setting settings[16];
    size_t count = 0, length, which = SIZE_MAX, given_count;
    uint8_t kind = kind_of(strtok(words, " ")), id = (uint8_t)strtoul(strtok(NULL, " "), NULL, 10);
    const char *hex = strtok(NULL, " ");
    given_count = hex[0] == '-' ? 0 : bytes_of(hex, given);
    /* A report of no byte is not a new one here. */
    int is_empty = hex[0] == '.';
    for (char *word; (word = strtok(NULL, " ")) != NULL && count < 16;)
        settings[count++] = setting_of(word);
    hidr_status status = hidr_write(reader, kind, id, settings, count, given, given_count, report, sizeof report, &length, &which);
    if (is_empty) {
        printf("%s", status == HIDR_UNKNOWN_REPORT ? "unknown-report" : "short");
        return;
    }
    if (status != HIDR_OK) {
        print_refusal(status, which);
        return;
    }
    CHECK(length <= sizeof report && which == SIZE_MAX);
    for (size_t at = 0; at < length; at++)
        printf("%02x", report[at]);
}

int main(void) {
    char *line = NULL;
    size_t room = 0;
    ssize_t length;
    text_end = (uint8_t *)room_at_the_end(BYTES) + BYTES;
    report_end = (uint8_t *)room_at_the_end(BYTES) + BYTES;
    while ((length = getline(&line, &room, stdin)) > 0) {
        line[strcspn(line, "\n")] = 0;
        if (line[0] == 'D')
            tell_descriptor(line + 2);
        else if (line[0] == 'L')
            tell_lenient(line + 2);
        else if (reader == 0)
            printf("no descriptor");
        else if (line[0] == 'R')
            tell_values(line + 2);
        else
            tell_written(line + 2);
        printf("\n");
    }
    free(line);
    if (reader != 0)
        ANSWERS(HIDR_OK, hidr_close(reader));
    CHECK(free_handles() == HIDR_HANDLES);
    return 0;
}
