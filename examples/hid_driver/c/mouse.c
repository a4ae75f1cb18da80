// SPDX-License-Identifier: MIT OR Apache-2.0
/* Follows a mouse: where it is after each report, and which buttons are down. */
#include "driver.h"

static const struct report {
    size_t length;
    uint8_t bytes[4];
} reports[] = {{4, {0, 5, 0xfd, 0}}, {4, {1, 0, 0, 0}}, {2, {1, 120}}, {4, {1, 120, 10, 0}}, {4, {0, 0, 0, 0xff}}};

int main(int argc, char **argv) {
    hidr_reader reader = reader_of(argc > 1 ? argv[1] : NULL);
    struct values values = {0};
    int64_t x = 0, y = 0, lines = 0;
    for (size_t number = 0; number < sizeof reports / sizeof reports[0]; number++) {
        if (!read_or_drop(reader, reports[number].bytes, reports[number].length, &values))
            continue;
        for (size_t at = 0; at < values.count; at++) {
            hidr_value value = values.all[at];
            int64_t *where = NULL;
            switch (value.usage) {
            case HIDU_GENERIC_DESKTOP_X: where = &x; break;
            case HIDU_GENERIC_DESKTOP_Y: where = &y; break;
            case HIDU_GENERIC_DESKTOP_WHEEL: where = &lines; break;
            }
            /* A value of an axis that is relative is added, any other is where the pointer is. */
            if (where != NULL)
                *where = (detail_of(reader, &value).flags & HIDR_RELATIVE ? *where : 0) + value.raw;
        }
        printf("at %" PRId64 " %" PRId64 ", wheel %" PRId64, x, y, lines);
        print_buttons(&values);
        printf("\n");
    }
    free(values.all);
    hidr_close(reader);
    return 0;
}
