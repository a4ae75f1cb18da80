// SPDX-License-Identifier: MIT OR Apache-2.0
/* Follows two gamepads: the hat in degrees, sticks from -1 to 1, pedals from 0 to 1, and which buttons are down. */
#include "driver.h"

#define MOST_REPORTS 4

struct report {
    size_t length; /* 0 behind the last one */
    uint8_t bytes[13];
};

static const struct report reports[2][MOST_REPORTS] = {
    /* Sticks of -32,767 to 32,767, and a hat of 1 to 8 with Null State. */
    {{13, {0}},
     {13, {0x01, 0x02, 0x03, 0xff, 0x7f, 0x01, 0x80, 0, 0, 0, 0, 255, 0}},
     {3, {0x01, 0x02, 0x03}},
     {13, {0x00, 0x00, 0x06, 0x00, 0x40, 0, 0, 0, 0, 0, 0, 0, 51}}},
    /* Sticks of 0 to 255, and a hat of 0 to 7 without Null State. */
    {{5, {128, 128, 128, 128, 8}}, {5, {0, 255, 128, 64, 0x20}}, {5, {128, 128, 128, 128, 0x17}}, {0, {0}}}};

/* Where a stick is, from -1 to 1, by the middle of its extents: no descriptor says where an axis rests. */
static double stick(const hidr_detail *detail, int64_t raw) {
    int64_t half = (detail->max - detail->min + 1) / 2;
    return half > 0 ? (double)(raw - detail->min - half) / (double)half : 0;
}

/* How far down a pedal is, from 0 to 1. */
static double pedal(const hidr_detail *detail, int64_t raw) {
    int64_t span = detail->max - detail->min;
    return span > 0 ? (double)(raw - detail->min) / (double)span : 0;
}

static void tell(hidr_reader reader, const struct values *values) {
    const hidr_value *hat = NULL;
    int axes = 0;
    /* A hat at rest says a value outside its extents, with Null State (HIDR_IS_NULL) or without (HIDR_IS_OUT): that is no
     * direction. */
    for (size_t at = 0; at < values->count; at++)
        if (values->all[at].usage == HIDU_GENERIC_DESKTOP_HAT_SWITCH && values->all[at].within == HIDR_IN_RANGE)
            hat = &values->all[at];
    printf("hat ");
    if (hat == NULL)
        printf("none");
    else
        print_physical(reader, hat, 0);
    print_buttons(values);
    for (size_t at = 0; at < values->count; at++) {
        const hidr_value *value = &values->all[at];
        hidr_detail detail = detail_of(reader, value);
        int is_stick = value->usage >= HIDU_GENERIC_DESKTOP_X && value->usage <= HIDU_GENERIC_DESKTOP_RZ;
        double share = is_stick ? stick(&detail, value->raw) : pedal(&detail, value->raw);
        char name[64];
        size_t length;
        if (!value->has_usage || value->usage >> 16 == HIDU_BUTTON_PAGE || value->usage == HIDU_GENERIC_DESKTOP_HAT_SWITCH)
            continue;
        if (value->within != HIDR_IN_RANGE || share == 0)
            continue;
        needs(hidr_usage_name(value->usage, name, sizeof name, &length), "the name");
        printf(", %s %.2f", name, share);
        axes++;
    }
    printf("%s\n", axes == 0 ? ", centred" : "");
}

int main(int argc, char **argv) {
    struct values values = {0};
    for (int device = 0; device < 2; device++) {
        hidr_reader reader = reader_of(argc > device + 1 ? argv[device + 1] : NULL);
        for (const struct report *report = reports[device]; report < reports[device] + MOST_REPORTS && report->length; report++)
            if (read_or_drop(reader, report->bytes, report->length, &values))
                tell(reader, &values);
        printf("--\n");
        hidr_close(reader);
    }
    free(values.all);
    return 0;
}
