// SPDX-License-Identifier: MIT OR Apache-2.0
/* Follows two touch screens: each contact by its identifier, and where it is in the unit of the screen. */
#include "driver.h"

/* Two fingers. */
static const uint8_t reports[][16] = {{1, 1, 5, 0x00, 0x08, 0xff, 0x0f, 0, 0, 0, 0, 0, 0, 0x10, 0x00, 1},
                                      {1, 1, 5, 0x10, 0x08, 0xff, 0x0f, 1, 6, 0x00, 0x04, 0x00, 0x02, 0x20, 0x00, 2},
                                      {9, 0, 5, 0x10, 0x08, 0xff, 0x0f, 1, 6, 0x00, 0x04, 0x10, 0x02, 0x30, 0x00, 2},
                                      {1, 0, 5, 0x10, 0x08, 0xff, 0x0f, 1, 6, 0x00, 0x04, 0x10, 0x02, 0x30, 0x00, 2},
                                      {1, 0, 6, 0x00, 0x04, 0x10, 0x02, 0, 0, 0, 0, 0, 0, 0x40, 0x00, 1},
                                      /* Contact 0, and a slot of zeros that is no contact. */
                                      {1, 1, 0, 0x00, 0x08, 0x00, 0x08, 0, 0, 0, 0, 0, 0, 0x50, 0x00, 1}};

/* Ten fingers, whose X and Y stand in a collection of their own: Tip Switch, Contact Identifier and X of the slots that are
 * used, and how many these are. */
static const struct ten {
    uint8_t slots[2][3], count;
} ten[] = {{{{1, 0, 10}}, 1}, {{{1, 0, 20}, {1, 9, 30}}, 2}, {{{0, 0, 20}, {1, 9, 31}}, 2}};

/* A contact as a report says it: all values of one finger's collection. */
struct contact {
    uint32_t finger; /* the collection */
    int down;
    int64_t number;
    hidr_value x, y;
};

/* The Finger that a value stands in, or HIDR_NONE: the innermost collection may be one of X and Y alone. */
static uint32_t finger_of(hidr_reader reader, const hidr_value *value) {
    uint32_t around[16];
    size_t count;
    needs(hidr_around(reader, value->item, around, 16, &count), "the collections");
    for (size_t at = 0; at < count; at++) {
        hidr_collection collection;
        needs(hidr_collection_at(reader, around[at], &collection), "the collection");
        if (collection.has_usage && collection.usage == HIDU_DIGITIZERS_FINGER)
            return around[at];
    }
    return HIDR_NONE;
}

/* The contacts of a report, in order, by the fingers' collections: how many. There is room for as many as there are values. */
static size_t contacts_of(hidr_reader reader, const struct values *values, struct contact *contacts) {
    size_t found = 0, used = SIZE_MAX;
    for (size_t at = 0; at < values->count; at++) {
        const hidr_value *value = &values->all[at];
        uint32_t finger = finger_of(reader, value);
        size_t place = 0;
        if (value->usage == HIDU_DIGITIZERS_CONTACT_COUNT && value->raw >= 0)
            used = (size_t)value->raw;
        if (finger == HIDR_NONE)
            continue;
        while (place < found && contacts[place].finger != finger)
            place++;
        if (place == found)
            contacts[found++] = (struct contact){.finger = finger};
        switch (value->usage) {
        case HIDU_DIGITIZERS_TIP_SWITCH: contacts[place].down = value->raw != 0; break;
        case HIDU_DIGITIZERS_CONTACT_IDENTIFIER: contacts[place].number = value->raw; break;
        case HIDU_GENERIC_DESKTOP_X: contacts[place].x = *value; break;
        case HIDU_GENERIC_DESKTOP_Y: contacts[place].y = *value; break;
        default: break;
        }
    }
    /* Only so many slots are contacts: an unused one of zeros would be contact 0, not touching. */
    return found < used ? found : used;
}

#define NUMBERS 128 /* Contact Identifiers of 0 to 127, as both descriptors say */

/* Takes the contacts of a report to those that are down, by their identifiers. */
static void follow(hidr_reader reader, const struct values *values, struct contact down[NUMBERS]) {
    struct contact *contacts = got(calloc(values->count + 1, sizeof *contacts));
    size_t count = contacts_of(reader, values, contacts);
    for (size_t at = 0; at < count; at++) {
        int64_t number = contacts[at].number;
        if (number < 0 || number >= NUMBERS) {
            fprintf(stderr, "contact %" PRId64 " is passed over\n", number);
            continue;
        }
        if (!contacts[at].down && down[number].down)
            printf("contact %" PRId64 " is lifted\n", number);
        down[number] = contacts[at];
    }
    free(contacts);
    for (size_t at = 0; at < NUMBERS; at++) {
        if (!down[at].down)
            continue;
        printf("contact %zu at ", at);
        print_physical(reader, &down[at].x, 2);
        printf(", ");
        print_physical(reader, &down[at].y, 2);
        printf("\n");
    }
    printf("--\n");
}

int main(int argc, char **argv) {
    static struct contact two_down[NUMBERS], ten_down[NUMBERS];
    struct values values = {0};
    hidr_reader reader = reader_of(argc > 1 ? argv[1] : NULL);
    for (size_t number = 0; number < sizeof reports / sizeof reports[0]; number++)
        if (read_or_drop(reader, reports[number], sizeof reports[number], &values))
            follow(reader, &values, two_down);
    hidr_close(reader);
    printf("ten fingers\n");
    reader = reader_of(argc > 2 ? argv[2] : NULL);
    for (size_t number = 0; number < sizeof ten / sizeof ten[0]; number++) {
        uint8_t report[1 + 10 * 8 + 1] = {1};
        for (size_t slot = 0; slot < ten[number].count; slot++)
            for (size_t byte = 0; byte < 3; byte++)
                report[1 + 8 * slot + byte] = ten[number].slots[slot][byte];
        report[sizeof report - 1] = ten[number].count;
        if (read_or_drop(reader, report, sizeof report, &values))
            follow(reader, &values, ten_down);
    }
    hidr_close(reader);
    free(values.all);
    return 0;
}
