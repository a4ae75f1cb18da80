// SPDX-License-Identifier: MIT OR Apache-2.0
/* The calls of a reader on descriptors, reports and settings that look random: `fuzz_reader SECONDS SEED FILE..`, where each file is
 * a descriptor. A report that is written is read back, and what two reports differ in is what is read in them. With DRAWN it is a
 * target of libFuzzer (tools/fuzz). */
#include "fuzz_views.h"

#include <time.h>

#define BYTES 4096

static uint8_t text[BYTES];
static uint32_t changed[2][PLACES];
static uint8_t reports[2][BYTES];

#ifdef DRAWN
static const uint8_t *drawn;
static size_t left;

/* The next bytes of libFuzzer; zeros behind the last one. */
static uint64_t below(uint64_t limit) {
    uint64_t number = 0;
    for (uint64_t most = 1; most < limit && left > 0; most <<= 8, left--)
        number = number << 8 | *drawn++;
    return number % limit;
}
#else
static uint64_t state;
static uint8_t texts[64][BYTES];
static size_t lengths[64], files;

static uint64_t below(uint64_t limit) {
    state ^= state << 13;
    state ^= state >> 7;
    state ^= state << 17;
    return (state >> 11) % limit;
}

/* One of the files with some bytes changed, put in or left out. */
static size_t mutated(void) {
    size_t file = below(files), length = lengths[file];
    memcpy(text, texts[file], length);
    for (uint64_t times = below(5); times > 0 && length > 0; times--) {
        size_t at = below(length);
        switch (below(3)) {
        case 0: text[at] = (uint8_t)below(256); break;
        case 1: memmove(text + at, text + at + 1, --length - at); break;
        default:
            if (length < BYTES)
                memmove(text + at + 1, text + at, length++ - at), text[at] = (uint8_t)below(256);
        }
    }
    return length;
}

#endif

static int is_in(const uint32_t *usages, size_t count, uint32_t usage) {
    for (size_t at = 0; at < count; at++)
        if (usages[at] == usage)
            return 1;
    return 0;
}

/* Whether a usage is on among values: those within the logical extents alone count. */
static int is_on(hidr_reader reader, const hidr_value *all, size_t count, uint32_t usage) {
    for (size_t at = 0; at < count; at++) {
        hidr_field field;
        ANSWERS(HIDR_OK, hidr_field_at(reader, all[at].field, &field));
        if (all[at].within == HIDR_IN_RANGE && all[at].has_usage && all[at].usage == usage && usage % 65536 != 0 &&
            (field.array || all[at].raw != 0))
            return 1;
    }
    return 0;
}

static void compares(hidr_reader reader, uint8_t kind, const size_t *length) {
    size_t count[2], both[2];
    hidr_status read[2], status;
    for (int number = 0; number < 2; number++)
        read[number] = hidr_read(reader, kind, reports[number], length[number], values[number], PLACES, &count[number], NULL);
    status = hidr_changes(reader, kind, reports[0], length[0], reports[1], length[1], changed[0], PLACES, &both[0], changed[1], PLACES,
                          &both[1]);
    if (read[0] != HIDR_OK || read[1] != HIDR_OK) {
        ANSWERS(read[0] != HIDR_OK ? read[0] : read[1], status);
        return;
    }
    if (status == HIDR_OTHER_ID)
        return;
    ANSWERS(HIDR_OK, status);
    for (int number = 0; number < 2; number++)
        for (size_t at = 0; at < count[number] && at < 300; at++) {
            uint32_t usage = values[number][at].usage;
            int here = is_on(reader, values[1], count[1], usage), there = is_on(reader, values[0], count[0], usage);
            CHECK(is_in(changed[0], both[0], usage) == (here && !there));
            CHECK(is_in(changed[1], both[1], usage) == (there && !here));
        }
}

static void writes(hidr_reader reader, uint8_t kind, size_t length) {
    hidr_setting settings[8];
    size_t count = below(8), long_, which, fields = 0;
    ANSWERS(HIDR_OK, hidr_field_count(reader, &fields));
    for (size_t at = 0; at < count; at++) {
        uint32_t field = (uint32_t)below(fields + 1), usage = 0;
        uint8_t by = (uint8_t)below(2);
        (void)hidr_usage_at(reader, field, below(9), &usage);
        settings[at] = (hidr_setting){.value = (int64_t)below(6) - 2, .control = by ? field : usage, .place = (uint32_t)below(4),
                                      .by = by, .null = below(9) == 0};
    }
    uint8_t id = length > 0 && below(4) ? reports[0][0] : (uint8_t)below(3);
    hidr_status status = hidr_write(reader, kind, id, settings, count, reports[0], below(3) ? length : 0, written, sizeof written,
                                    &long_, &which);
    if (status != HIDR_OK)
        return;
    size_t told;
    ANSWERS(HIDR_OK, hidr_read(reader, kind, written, long_, values[0], PLACES, &told, NULL));
}

/* A text with reports, and all that is asked of them. 1 where the text is a descriptor. */
static int reads(size_t text_length) {
    hidr_reader reader;
    if (hidr_reader_open(text, text_length, &reader, NULL) != HIDR_OK)
        return 0;
    for (int times = 0; times < 8; times++) {
        size_t length[2] = {below(40), below(40)};
        uint8_t kind = (uint8_t)below(4);
        for (int number = 0; number < 2; number++)
            for (size_t at = 0; at < length[number]; at++)
                reports[number][at] = (uint8_t)(at == 0 ? below(4) : below(3) ? below(256) : 0);
        if (below(2))
            memcpy(reports[1], reports[0], length[1] = length[0]), reports[1][below(40)] ^= (uint8_t)(1 << below(8));
        compares(reader, kind, length);
        writes(reader, kind, length[0]);
        looks(reader, kind, reports[1], length[1]);
    }
    ANSWERS(HIDR_OK, hidr_close(reader));
    return 1;
}

#ifdef DRAWN
int LLVMFuzzerTestOneInput(const uint8_t *bytes, size_t count);

/* The first byte is half the length of the text behind it. */
int LLVMFuzzerTestOneInput(const uint8_t *bytes, size_t count) {
    size_t length = count == 0 ? 0 : 2 * (size_t)bytes[0];
    if (room_end == NULL)
        room_end = room_at_the_end(BYTES) + BYTES;
    drawn = bytes + (count > 0), left = count - (count > 0);
    length = length < left ? length : left;
    memcpy(text, drawn, length);
    drawn += length, left -= length;
    reads(length);
    return 0;
}
#else
int main(int words, char **word) {
    uint64_t rounds = 0, opened = 0;
    time_t end = time(NULL) + atol(word[1]);
    state = (uint64_t)atol(word[2]) * 2 + 1;
    room_end = room_at_the_end(BYTES) + BYTES;
    for (int at = 3; at < words && files < 64; at++) {
        FILE *file = fopen(word[at], "rb");
        CHECK(file);
        lengths[files] = fread(texts[files], 1, BYTES, file);
        files += lengths[files] > 0;
        fclose(file);
    }
    for (; time(NULL) < end; rounds++)
        opened += (uint64_t)reads(mutated());
    fprintf(stderr, "%llu texts, %llu readers\n", (unsigned long long)rounds, (unsigned long long)opened);
    CHECK(opened > 0 && keys_seen > 0 && axes_seen > 0 && raw_puts > 0 && raw_reports > 0 && all_written > 0);
    printf("what is read, compared and written: each as it has to be\n");
    return 0;
}
#endif
