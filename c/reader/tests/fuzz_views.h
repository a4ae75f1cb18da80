// SPDX-License-Identifier: MIT OR Apache-2.0
/* Views, raw writes and all controls of a usage, on a report at random: each beside what hidr_read tells of the same report. */
#ifndef FUZZ_VIEWS_H
#define FUZZ_VIEWS_H

#include "check.h"

#include <math.h>

#define PLACES (1 << 18)
#define FEW 64

static hidr_value values[2][PLACES];
static uint8_t written[1 << 21], raw[1 << 21];
static uint8_t *room_end; /* where memory ends */
static size_t keys_seen, axes_seen, raw_puts, raw_reports, all_written;

static uint64_t below(uint64_t limit);

static void is_axis(const hidr_axis *axis) {
    axes_seen += axis->is_there;
    CHECK(axis->is_there <= 1 && axis->is_relative <= 1);
    CHECK(isnan(axis->share) == isnan(axis->centred));
    CHECK(isnan(axis->share) || (axis->share >= 0 && axis->share <= 1 && axis->centred >= -1 && axis->centred <= 1));
    CHECK(isnan(axis->share) || (axis->is_there && axis->min < axis->max && axis->raw >= axis->min && axis->raw <= axis->max));
}

/* Whether a usage is among the values of the report. */
static int is_told(size_t count, uint32_t usage) {
    while (count > 0 && !(values[0][count - 1].has_usage && values[0][count - 1].usage == usage))
        count--;
    return count > 0;
}

static void views_keys(hidr_reader reader, const uint8_t *report, size_t length, hidr_status wanted, size_t told) {
    size_t most = below(9), count;
    uint32_t *down = (uint32_t *)room_end - most;
    uint8_t is_error;
    FILL(count);
    FILL(is_error);
    ANSWERS(wanted, hidr_view_keys(reader, report, length, down, most, &count, &is_error));
    if (wanted != HIDR_OK) {
        UNTOUCHED(count);
        UNTOUCHED(is_error);
        return;
    }
    CHECK(is_error <= 1);
    keys_seen += count;
    for (size_t at = 0; at < count && at < most; at++)
        CHECK(is_told(told, down[at]) && (at == 0 || down[at - 1] < down[at]));
}

static void views_one(hidr_reader reader, const uint8_t *report, size_t length, hidr_status wanted) {
    hidr_pointer pointer;
    hidr_pad pad;
    FILL(pointer);
    FILL(pad);
    ANSWERS(wanted, hidr_view_pointer(reader, report, length, &pointer));
    ANSWERS(wanted, hidr_view_pad(reader, report, length, &pad));
    if (wanted != HIDR_OK) {
        UNTOUCHED(pointer);
        UNTOUCHED(pad);
        return;
    }
    is_axis(&pointer.x);
    is_axis(&pointer.y);
    CHECK(pointer.buttons[0] == pad.buttons[0] && pointer.buttons[1] == pad.buttons[1]);
    for (int at = 0; at < 6; at++)
        is_axis(&pad.axes[at]);
    for (uint32_t at = 0; at < 4; at++)
        CHECK(pad.hats[at].of == 0 ? pad.hats[at].step == 0 : at < pad.hat_count && pad.hats[at].step < pad.hats[at].of);
    for (uint32_t at = 0; at < 8; at++) {
        is_axis(&pad.others[at].axis);
        CHECK((pad.others[at].usage != 0) == (at < pad.other_count));
    }
}

static void views_several(hidr_reader reader, const uint8_t *report, size_t length, hidr_status wanted) {
    hidr_contact contacts[FEW];
    hidr_pen pens[FEW];
    size_t most = below(FEW + 1), count, pen_count;
    FILL(contacts);
    FILL(pens);
    ANSWERS(wanted, hidr_view_touch(reader, report, length, contacts, most, &count));
    ANSWERS(wanted, hidr_view_pens(reader, report, length, pens, most, &pen_count));
    for (size_t at = wanted != HIDR_OK ? 0 : count < most ? count : most; at < FEW; at++)
        UNTOUCHED(contacts[at]);
    for (size_t at = wanted != HIDR_OK ? 0 : pen_count < most ? pen_count : most; at < FEW; at++)
        UNTOUCHED(pens[at]);
    for (size_t at = 0; wanted == HIDR_OK && at < count && at < most; at++) {
        is_axis(&contacts[at].x);
        is_axis(&contacts[at].pressure);
        CHECK(contacts[at].has_id <= 1 && contacts[at].touches <= 1 && contacts[at].is_valid <= 2);
    }
    for (size_t at = 0; wanted == HIDR_OK && at < pen_count && at < most; at++) {
        is_axis(&pens[at].y);
        is_axis(&pens[at].tilt[1]);
        CHECK(pens[at].in_range <= 1 && pens[at].erases <= 1 && pens[at].buttons[1] <= 1);
    }
}

/* A number or bytes into a copy of the report: its values are the same but those of the field, and nothing changes where it is refused. */
static void puts_raw(hidr_reader reader, uint8_t kind, const uint8_t *report, size_t length, hidr_status wanted, size_t told) {
    size_t fields = 0, again;
    ANSWERS(HIDR_OK, hidr_field_count(reader, &fields));
    size_t field = below(fields + 1), count = below(9);
    uint32_t number = (uint32_t)(below(2) ? below(4) : below(UINT64_C(1) << 32));
    uint16_t place = (uint16_t)below(4);
    uint8_t *copy = room_end - length, bytes[8];
    for (size_t at = 0; at < 8; at++)
        bytes[at] = (uint8_t)below(256);
    memcpy(copy, report, length);
    hidr_field about = {0};
    (void)hidr_field_at(reader, field, &about);
    int of_place = below(2) != 0;
    hidr_status status = of_place ? hidr_put_raw(reader, kind, copy, length, field, place, number)
                                  : hidr_put_bytes(reader, kind, copy, length, field, bytes, count);
    if (wanted != HIDR_OK)
        ANSWERS(wanted, status);
    if (status != HIDR_OK) {
        CHECK(wanted != HIDR_OK || status == HIDR_ABSENT || status == HIDR_TOO_LARGE);
        CHECK(memcmp(copy, report, length) == 0);
        return;
    }
    CHECK(!of_place || (place < about.count && (about.size == 32 || number >> about.size == 0)));
    ANSWERS(HIDR_OK, hidr_read(reader, kind, copy, length, values[1], PLACES, &again, NULL));
    CHECK(again == told);
    raw_puts++;
    uint64_t seen = 0, mask = (UINT64_C(1) << about.size) - 1;
    for (size_t at = 0; at < told && at < PLACES; at++) {
        const hidr_value *now = &values[1][at], *before = &values[0][at];
        int is_it = now->field == field && (!of_place || now->place == place);
        CHECK(now->field == before->field && now->place == before->place && (is_it || now->raw == before->raw));
        seen += of_place && is_it && ((uint64_t)now->raw & mask) == number;
    }
    CHECK(!of_place || seen == 1 || told > PLACES);
}

static void makes_raw(hidr_reader reader, uint8_t kind, const uint8_t *report, size_t length) {
    uint8_t id = (uint8_t)below(4), ids;
    size_t bytes = 0, made, room = below(2) ? sizeof raw : below(9);
    ANSWERS(HIDR_OK, hidr_uses_ids(reader, &ids));
    FILL(made);
    hidr_status is_there = hidr_report_length(reader, kind, id, &bytes);
    hidr_status status = hidr_raw_report(reader, kind, id, report, length, raw, room, &made);
    ANSWERS(is_there != HIDR_OK ? HIDR_UNKNOWN_REPORT : ids + length > bytes ? HIDR_TOO_LARGE : HIDR_OK, status);
    if (status != HIDR_OK) {
        UNTOUCHED(made);
        return;
    }
    CHECK(made == bytes);
    raw_reports++;
    for (size_t at = 0; at < made && at < room; at++)
        CHECK(raw[at] == (at < ids ? id : at - ids < length ? report[at - ids] : 0));
}

/* All controls of a usage are those that the reading tells, and are written as so many settings are. */
static void takes_all(hidr_reader reader, uint8_t kind, const uint8_t *report, size_t length, hidr_status wanted, size_t told) {
    uint32_t usage = told > 0 && told <= PLACES ? values[0][below(told)].usage : (uint32_t)below(1 << 20);
    int64_t all[FEW], given[4];
    hidr_setting settings[4];
    size_t count, at = 0, lengths[2] = {0}, which[2] = {9, 9}, some = below(5), most = below(FEW + 1);
    ANSWERS(wanted, hidr_read_all(reader, kind, report, length, usage, all, most, &count));
    for (size_t number = 0; wanted == HIDR_OK && number < told && told <= PLACES && at < most; number++)
        if (values[0][number].has_usage && values[0][number].usage == usage) {
            hidr_field field;
            ANSWERS(HIDR_OK, hidr_field_at(reader, values[0][number].field, &field));
            CHECK(all[at++] == (field.array ? 1 : values[0][number].raw));
        }
    CHECK(wanted != HIDR_OK || told > PLACES || at == (count < most ? count : most));
    for (size_t number = 0; number < some; number++) {
        given[number] = (int64_t)below(5) - 1;
        settings[number] = (hidr_setting){.value = given[number], .control = usage, .place = (uint32_t)number};
    }
    uint8_t id = length > 0 ? report[0] : 0;
    size_t onto = below(2) ? length : 0;
    hidr_status one = hidr_write(reader, kind, id, settings, some, report, onto, written, sizeof written, &lengths[0], &which[0]);
    ANSWERS(one, hidr_write_all(reader, kind, id, usage, given, some, report, onto, raw, sizeof raw, &lengths[1], &which[1]));
    all_written += one == HIDR_OK && some > 0;
    CHECK(lengths[0] == lengths[1] && which[0] == which[1]);
    CHECK(memcmp(written, raw, lengths[0] < sizeof raw ? lengths[0] : sizeof raw) == 0);
}

/* What stands in a report, by each of these calls. */
static void looks(hidr_reader reader, uint8_t kind, const uint8_t *report, size_t length) {
    size_t told = 0;
    hidr_status as_input = hidr_read(reader, HIDR_INPUT, report, length, values[0], PLACES, &told, NULL);
    views_keys(reader, report, length, as_input, told);
    views_one(reader, report, length, as_input);
    views_several(reader, report, length, as_input);
    told = 0;
    hidr_status status = hidr_read(reader, kind, report, length, values[0], PLACES, &told, NULL);
    takes_all(reader, kind, report, length, status, told);
    puts_raw(reader, kind, report, length, status, told);
    makes_raw(reader, kind, report, length);
}

#endif
