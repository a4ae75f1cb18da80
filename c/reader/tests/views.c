// SPDX-License-Identifier: MIT OR Apache-2.0
/* Views of what a device is, raw writes, and all controls of a usage: each as the device's report says it, refusals by name. */
#include "../hid_reader.h"

#include <math.h>
#include <stdio.h>
#include <stdlib.h>
#include <string.h>

#define NEEDS(what) ((what) ? (void)0 : (fprintf(stderr, "%s:%d: not so: %s\n", __FILE__, __LINE__, #what), exit(1)))

static hidr_reader opened(const uint8_t *text, size_t length) {
    hidr_reader reader;
    NEEDS(hidr_reader_open(text, length, &reader, NULL) == HIDR_OK);
    return reader;
}

static void keys(void) {
    static const uint8_t TEXT[] = {0x05, 0x07, 0x19, 0xe0, 0x29, 0xe7, 0x25, 0x01, 0x75, 0x01, 0x95, 0x08, 0x81, 0x02, 0x19, 0x00,
                                   0x29, 0xff, 0x26, 0xff, 0x00, 0x75, 0x08, 0x95, 0x02, 0x81, 0x00};
    hidr_reader reader = opened(TEXT, sizeof TEXT);
    const uint8_t down[] = {2, 4, 0}, rolled[] = {0, 1, 1};
    uint32_t usages[2];
    size_t count;
    uint8_t is_error;
    NEEDS(hidr_view_keys(reader, down, 3, usages, 2, &count, &is_error) == HIDR_OK && count == 2 && !is_error);
    NEEDS(usages[0] == 0x00070004 && usages[1] == 0x000700e1);
    NEEDS(hidr_view_keys(reader, rolled, 3, usages, 2, &count, &is_error) == HIDR_OK && count == 0 && is_error);
    NEEDS(hidr_view_keys(reader, down, 2, usages, 2, &count, NULL) == HIDR_SHORT_REPORT);
    NEEDS(hidr_view_keys(reader, down, 3, NULL, 2, &count, NULL) == HIDR_NULL && hidr_close(reader) == HIDR_OK);
    NEEDS(hidr_view_keys(reader, down, 3, usages, 2, &count, NULL) == HIDR_CLOSED);
}

static void pointer_and_pad(void) {
    static const uint8_t MOUSE[] = {0x05, 0x09, 0x19, 1,    0x29, 8,    0x25, 1,    0x75, 1, 0x95, 8, 0x81, 2, 0x05, 0x01, 0x09,
                                    0x30, 0x09, 0x38, 0x15, 0x81, 0x25, 0x7f, 0x75, 8, 0x95, 2, 0x81, 6};
    static const uint8_t PAD[] = {0x05, 0x01, 0x09, 0x39, 0x25, 7,    0x75, 8,    0x95, 1,   0x81, 2,
                                  0x09, 0x30, 0x26, 0xff, 0,    0x81, 0x02, 0x09, 0x36, 0x81, 0x02};
    const uint8_t moved[] = {4, 0xfd, 1}, held[] = {2, 255, 51}, rests[] = {8, 0, 0};
    hidr_reader reader = opened(MOUSE, sizeof MOUSE);
    hidr_pointer pointer;
    hidr_pad pad;
    NEEDS(hidr_view_pointer(reader, moved, 3, &pointer) == HIDR_OK && pointer.buttons[0] == 4 && pointer.wheel == 1);
    NEEDS(pointer.x.is_there && pointer.x.is_relative && pointer.x.raw == -3 && !pointer.y.is_there && isnan(pointer.y.share));
    NEEDS(hidr_view_pointer(reader, moved, 3, NULL) == HIDR_NULL && hidr_close(reader) == HIDR_OK);
    reader = opened(PAD, sizeof PAD);
    NEEDS(hidr_view_pad(reader, held, 3, &pad) == HIDR_OK && pad.hat_count == 1 && pad.hats[0].step == 2 && pad.hats[0].of == 8);
    NEEDS(pad.axes[0].centred == 1.0 && isnan(pad.axes[0].millimetres) && pad.other_count == 1 && pad.others[0].axis.share == 0.2);
    NEEDS(pad.others[0].usage == 0x00010036 && !pad.others[1].axis.is_there);
    NEEDS(hidr_view_pad(reader, rests, 3, &pad) == HIDR_OK && pad.hat_count == 1 && pad.hats[0].of == 0);
    NEEDS(hidr_close(reader) == HIDR_OK);
}

static void touch_and_pen(void) {
    static const uint8_t TEXT[] = {0x05, 0x0d, 0x09, 0x22, 0xa1, 0x02, 0x09, 0x42, 0x25, 1,    0x75, 8, 0x95, 1, 0x81, 2,
                                   0x09, 0x51, 0x25, 0x7f, 0x81, 0x02, 0x05, 0x01, 0x09, 0x30, 0x46, 0x7f, 0, 0x65, 0x11, 0x81,
                                   2,    0xc0, 0x05, 0x0d, 0x09, 0x20, 0xa1, 0x02, 0x09, 0x32, 0x81, 2,    0x09, 0x42, 0x81, 2, 0xc0};
    const uint8_t report[] = {1, 7, 40, 1, 0};
    hidr_reader reader = opened(TEXT, sizeof TEXT);
    hidr_contact contacts[2];
    hidr_pen pens[2];
    size_t count;
    NEEDS(hidr_view_touch(reader, report, 5, contacts, 2, &count) == HIDR_OK && count == 1 && contacts[0].id == 7);
    NEEDS(contacts[0].touches && contacts[0].is_valid == 2 && contacts[0].x.millimetres == 400.0);
    NEEDS(hidr_view_pens(reader, report, 5, pens, 2, &count) == HIDR_OK && count == 1 && pens[0].in_range && !pens[0].touches);
    NEEDS(hidr_view_pens(reader, NULL, 5, pens, 2, &count) == HIDR_NULL && hidr_close(reader) == HIDR_OK);
}

static void raw(void) {
    /* Three bytes of one usage, whose extents are 0 to 0, and three with extents. */
    static const uint8_t TEXT[] = {0x06, 0, 0xff, 0x09, 1, 0x75, 8, 0x95, 3, 0x91, 2, 0x09, 2, 0x26, 0xff, 0, 0x91, 2};
    hidr_reader reader = opened(TEXT, sizeof TEXT);
    uint8_t report[6] = {0};
    const int64_t values[] = {7, 8, 9};
    int64_t found[3];
    size_t count, which;
    NEEDS(hidr_raw_report(reader, HIDR_OUTPUT, 0, (const uint8_t *)"abc", 3, report, 6, &count) == HIDR_OK && count == 6);
    NEEDS(memcmp(report, "abc\0\0\0", 6) == 0);
    NEEDS(hidr_raw_report(reader, HIDR_OUTPUT, 0, (const uint8_t *)"abcdefg", 7, report, 6, &count) == HIDR_TOO_LARGE);
    NEEDS(hidr_raw_report(reader, HIDR_INPUT, 0, NULL, 0, report, 6, &count) == HIDR_UNKNOWN_REPORT);
    NEEDS(hidr_put_raw(reader, HIDR_OUTPUT, report, 6, 0, 1, 'x') == HIDR_OK && memcmp(report, "axc", 3) == 0);
    NEEDS(hidr_put_raw(reader, HIDR_OUTPUT, report, 6, 0, 1, 256) == HIDR_TOO_LARGE);
    NEEDS(hidr_put_raw(reader, HIDR_OUTPUT, report, 6, 2, 0, 0) == HIDR_ABSENT);
    NEEDS(hidr_put_bytes(reader, HIDR_OUTPUT, report, 6, 1, report, 3) == HIDR_OK && memcmp(report, "axcaxc", 6) == 0);
    NEEDS(hidr_put_bytes(reader, HIDR_OUTPUT, report, 5, 1, report, 3) == HIDR_SHORT_REPORT);
    NEEDS(hidr_write_all(reader, HIDR_OUTPUT, 0, 0xff000002, values, 3, report, 6, report, 6, &count, &which) == HIDR_OK);
    NEEDS(count == 6 && memcmp(report, "axc\7\10\11", 6) == 0);
    NEEDS(hidr_write_all(reader, HIDR_OUTPUT, 0, 0xff000001, values, 3, NULL, 0, report, 6, &count, &which) == HIDR_OUT_OF_RANGE);
    NEEDS(which == 0 && hidr_read_all(reader, HIDR_OUTPUT, report, 6, 0xff000002, found, 3, &count) == HIDR_OK && count == 3);
    NEEDS(found[0] == 7 && found[2] == 9 && hidr_close(reader) == HIDR_OK);
}

int main(void) {
    keys();
    pointer_and_pad();
    touch_and_pen();
    raw();
    puts("views, raw writes and all controls of a usage: each as the report says it");
    return 0;
}
