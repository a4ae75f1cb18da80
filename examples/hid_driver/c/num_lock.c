// SPDX-License-Identifier: MIT OR Apache-2.0
/* Makes the reports that turn a keyboard's Num Lock LED on and off and leave its other LEDs as they are, of each keyboard. */
#include "driver.h"

#define MOST_BYTES 64
#define INTERFACE 0 /* the one whose descriptor it is */

struct report {
    size_t length;
    uint8_t bytes[MOST_BYTES];
};

/* A report with an LED set, onto another one or new. */
static hidr_status set(hidr_reader reader, uint8_t kind, uint8_t id, uint32_t usage, int64_t on, const struct report *onto,
                       struct report *report, size_t *which) {
    hidr_setting led = {.control = usage, .by = HIDR_BY_USAGE, .value = on};
    const uint8_t *bytes = onto != NULL ? onto->bytes : NULL;
    hidr_status status = hidr_write(reader, kind, id, &led, 1, bytes, onto != NULL ? onto->length : 0, report->bytes, MOST_BYTES,
                                    &report->length, which);
    if (status == HIDR_OK && report->length > MOST_BYTES) {
        fprintf(stderr, "a report of %zu bytes\n", report->length);
        exit(1);
    }
    return status;
}

/* The ID of the output report in which an LED can be set, 0 where none is used. */
static uint8_t report_of(hidr_reader reader, uint32_t usage) {
    size_t count, which;
    struct report report;
    hidr_report *all;
    needs(hidr_reports(reader, NULL, 0, &count), "the reports");
    all = got(calloc(count + 1, sizeof *all));
    needs(hidr_reports(reader, all, count, &count), "the reports");
    for (size_t at = 0; at < count; at++)
        if (all[at].kind == HIDR_OUTPUT && set(reader, HIDR_OUTPUT, all[at].id, usage, 1, NULL, &report, &which) == HIDR_OK) {
            uint8_t id = all[at].id;
            free(all);
            return id;
        }
    fprintf(stderr, "no output report has the LED\n");
    exit(1);
}

static void print(const char *name, const uint8_t *bytes, size_t length) {
    printf("%-17s[", name);
    for (size_t at = 0; at < length; at++)
        printf("%s%02x", at > 0 ? ", " : "", bytes[at]);
    printf("]\n");
}

/* Prints a report with an LED set, or why there is none, with the number of the setting only where one is at fault. */
static void tell(const char *name, hidr_reader reader, uint8_t kind, uint8_t id, uint32_t usage, int64_t on,
                 const struct report *onto, struct report *report) {
    size_t which = 0;
    hidr_status status = set(reader, kind, id, usage, on, onto, report, &which);
    if (status == HIDR_OK)
        print(name, report->bytes, report->length);
    else if (status >= HIDR_UNKNOWN_CONTROL && status <= HIDR_NO_ROOM)
        printf("%-17ssetting %zu: %s\n", name, which, hidr_status_name(status));
    else
        printf("%-17s%s\n", name, hidr_status_name(status));
}

int main(int argc, char **argv) {
    for (int keyboard = 1; keyboard < argc; keyboard++) {
        hidr_reader reader = reader_of(argv[keyboard]);
        uint8_t id = report_of(reader, HIDU_LED_NUM_LOCK);
        struct report caps = {0}, both = {0}, other = {0};
        tell("Caps Lock, new", reader, HIDR_OUTPUT, id, HIDU_LED_CAPS_LOCK, 1, NULL, &caps);
        /* Onto the last report that was sent, its ID byte with it: all other LEDs stay. */
        tell("Num Lock onto it", reader, HIDR_OUTPUT, id, HIDU_LED_NUM_LOCK, 1, &caps, &both);
        tell("off again", reader, HIDR_OUTPUT, id, HIDU_LED_NUM_LOCK, 0, &both, &other);
        /* A new report turns all other LEDs off. */
        tell("Num Lock, new", reader, HIDR_OUTPUT, id, HIDU_LED_NUM_LOCK, 1, NULL, &other);
        /* SET_REPORT to endpoint 0 (HID 1.11, 7.2.2), and the report is its data. */
        uint8_t request[8] = {0x21, 0x09, id, 0x02, INTERFACE, 0, (uint8_t)both.length, (uint8_t)(both.length >> 8)};
        print("its SET_REPORT", request, sizeof request);
        tell("as 2", reader, HIDR_OUTPUT, id, HIDU_LED_NUM_LOCK, 2, NULL, &other);
        tell("as an input", reader, HIDR_INPUT, id, HIDU_LED_NUM_LOCK, 1, NULL, &other);
        tell("of ID 9", reader, HIDR_OUTPUT, 9, HIDU_LED_NUM_LOCK, 1, NULL, &other);
        printf("--\n");
        hidr_close(reader);
    }
    return 0;
}
