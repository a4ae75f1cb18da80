// SPDX-License-Identifier: MIT OR Apache-2.0
#include "parser.h"
#include <stdlib.h>
#include <string.h>

enum {
    LONG_ITEM = 0xfe,
    LONGEST_TEXT = 4096,
    MAX_SIZE = 32,
    MAX_CONSTANT_SIZE = 1024,
    MAX_COUNT = 1024,
    MAX_FIELDS = 256,
    MAX_COLLECTIONS = 16,
    MAX_PUSHES = 8,
};

/* Room that is taken at first. */
enum { FIRST_FIELDS = 16, FIRST_RANGES = 64, FIRST_IDS = 16 };

/* Prefixes without their size, in quarters (HID 1.11, sections 6.2.2.4 to 6.2.2.8). */
enum tag {
    TAG_INPUT = 0x20,
    TAG_OUTPUT = 0x24,
    TAG_FEATURE = 0x2c,
    TAG_COLLECTION = 0x28,
    TAG_END_COLLECTION = 0x30,
    TAG_USAGE_PAGE = 0x01,
    TAG_LOGICAL_MINIMUM = 0x05,
    TAG_LOGICAL_MAXIMUM = 0x09,
    TAG_REPORT_SIZE = 0x1d,
    TAG_REPORT_ID = 0x21,
    TAG_REPORT_COUNT = 0x25,
    TAG_PUSH = 0x29,
    TAG_POP = 0x2d,
    TAG_USAGE = 0x02,
    TAG_USAGE_MINIMUM = 0x06,
    TAG_USAGE_MAXIMUM = 0x0a,
    TAG_DELIMITER = 0x2a,
};

/* What Global items set. The maximum is read as signed only under a negative minimum. */
struct globals {
    uint32_t page, size, count, id, unsigned_max;
    int32_t min, signed_max;
};

/* A Usage Minimum or Maximum that waits for the other one. */
struct half {
    bool waits, minimum, whole;
    uint32_t usage;
};

/* What is kept between two items. Usages since the last Main item stand behind the ranges of the fields. One of up to two bytes
 * takes its page at the Main item: its count is 0 till then, that of one with a page is 1. */
struct parser {
    struct descriptor out;
    uint32_t field_room, range_room, id_room, locals;
    struct globals now, saved[MAX_PUSHES];
    uint32_t pushes, collections;
    struct half half;
    bool has_ids, has_bare;
};

/* Makes room for one value more, twice as much as before. */
static bool grow(void **values, size_t size, uint32_t *room, uint32_t first)
{
    uint32_t more = *room ? 2 * *room : first;
    void *grown = realloc(*values, more * size);
    if (!grown)
        return false;
    *values = grown;
    *room = more;
    return true;
}

static enum parse_fault add_usages(struct parser *p, uint32_t first, uint32_t last, bool whole)
{
    uint32_t place = p->out.range_count + p->locals;
    if (place == p->range_room && !grow((void **)&p->out.ranges, sizeof *p->out.ranges, &p->range_room, FIRST_RANGES))
        return NO_MEMORY;
    p->out.ranges[place] = (struct usage_range){ first, last, whole };
    p->locals++;
    return NO_FAULT;
}

/* A Usage Minimum or Maximum (HID 1.11, section 6.2.2.8), in either order. */
static enum parse_fault take_half(struct parser *p, bool minimum, uint32_t usage, bool whole)
{
    struct half *half = &p->half;
    if (!half->waits) {
        *half = (struct half){ true, minimum, whole, usage };
        return NO_FAULT;
    }
    uint32_t first = minimum ? usage : half->usage, last = minimum ? half->usage : usage;
    if (half->minimum == minimum || half->whole != whole || (whole && (first ^ last) >> 16))
        return UNPAIRED_USAGE;
    if (first > last)
        return USAGE_INVERTED;
    half->waits = false;
    return add_usages(p, first, last, whole);
}

/* Gives the usages since the last Main item to a field: their pages and their counts. */
static void keep_usages(struct parser *p)
{
    struct usage_range *range = p->out.ranges + p->out.range_count;
    uint32_t count = 0, page = p->now.page << 16;
    for (uint32_t n = p->locals; n > 0; n--, range++) {
        if (!range->count) {
            range->first += page;
            range->last += page;
        }
        count += range->last - range->first + 1;
        range->count = count;
    }
    p->out.range_count += p->locals;
}

static int64_t maximum(const struct globals *now) { return now->min < 0 ? now->signed_max : (int64_t)now->unsigned_max; }

static bool fills(const struct globals *now) { return now->size && now->count; }

static enum parse_fault judge_data(const struct parser *p, uint32_t flags)
{
    const struct globals *now = &p->now;
    bool constant = flags & 1, array = !(flags & 2);
    if (now->size > (constant ? MAX_CONSTANT_SIZE : MAX_SIZE))
        return SIZE_TOO_LARGE;
    if (now->count > MAX_COUNT)
        return COUNT_TOO_LARGE;
    if (p->half.waits)
        return UNPAIRED_USAGE;
    if (array && !constant && maximum(now) < now->min)
        return LOGICAL_INVERTED;
    if (!constant && fills(now) && p->out.field_count >= MAX_FIELDS)
        return TOO_MANY_FIELDS;
    return now->id == 0 && p->has_ids ? MIXED_IDS : NO_FAULT;
}

/* The reports of the ID in force, or NULL where there is no memory. */
static struct id_reports *reports_of(struct parser *p)
{
    struct descriptor *out = &p->out;
    while (p->id_room <= p->now.id)
        if (!grow((void **)&out->reports, sizeof *out->reports, &p->id_room, FIRST_IDS))
            return NULL;
    for (; out->id_count <= p->now.id; out->id_count++)
        out->reports[out->id_count] = (struct id_reports){ .first = { NO_FIELD, NO_FIELD, NO_FIELD } };
    return out->reports + p->now.id;
}

/* An Input, Output or Feature item (HID 1.11, section 6.2.2.5): its bits, and where it is not Constant its field. */
static enum parse_fault take_data(struct parser *p, enum report_kind kind, uint32_t flags)
{
    const struct globals *now = &p->now;
    enum parse_fault fault = judge_data(p, flags);
    if (fault)
        return fault;
    p->has_bare |= now->id == 0;
    if (fills(now)) {
        struct id_reports *reports = reports_of(p);
        if (!reports)
            return NO_MEMORY;
        uint64_t bit = reports->bits[kind];
        reports->bits[kind] = bit + now->size * now->count;
        if (!(flags & 1)) {
            uint32_t place = p->out.field_count;
            if (place == p->field_room && !grow((void **)&p->out.fields, sizeof *p->out.fields, &p->field_room, FIRST_FIELDS))
                return NO_MEMORY;
            keep_usages(p);
            p->out.fields[place] = (struct field){ bit,  now->min, maximum(now), p->out.range_count, now->count,
                                                   NO_FIELD, kind, now->id, now->size, !(flags & 2) };
            p->out.field_count++;
        }
    }
    p->locals = 0;
    return NO_FAULT;
}

static enum parse_fault take_collection(struct parser *p)
{
    if (p->collections >= MAX_COLLECTIONS)
        return COLLECTION_DEEP;
    if (p->half.waits)
        return UNPAIRED_USAGE;
    p->collections++;
    p->locals = 0;
    return NO_FAULT;
}

static enum parse_fault take_end(struct parser *p)
{
    if (p->collections == 0)
        return END_WITHOUT_COLLECTION;
    if (p->half.waits)
        return UNPAIRED_USAGE;
    p->collections--;
    p->locals = 0;
    return NO_FAULT;
}

static enum parse_fault take_id(struct parser *p, uint32_t id)
{
    if (id - 1 >= 255)
        return BAD_REPORT_ID;
    if (p->has_bare)
        return MIXED_IDS;
    p->now.id = id;
    p->has_ids = true;
    return NO_FAULT;
}

static enum parse_fault push(struct parser *p)
{
    if (p->pushes >= MAX_PUSHES)
        return PUSH_DEEP;
    p->saved[p->pushes++] = p->now;
    return NO_FAULT;
}

static enum parse_fault pop(struct parser *p)
{
    if (p->pushes == 0)
        return POP_EMPTY;
    p->now = p->saved[--p->pushes];
    return NO_FAULT;
}

/* Takes a short item that sets a number which stays in force; an item of any other tag changes nothing. */
static enum parse_fault take_number(struct parser *p, uint8_t prefix, uint32_t data, int32_t as_signed)
{
    switch (prefix >> 2) {
    case TAG_USAGE_PAGE:
        p->now.page = data & 0xffff;
        break;
    case TAG_LOGICAL_MINIMUM:
        p->now.min = as_signed;
        break;
    case TAG_LOGICAL_MAXIMUM:
        p->now.signed_max = as_signed;
        p->now.unsigned_max = data;
        break;
    case TAG_REPORT_SIZE:
        p->now.size = data;
        break;
    case TAG_REPORT_COUNT:
        p->now.count = data;
        break;
    }
    return NO_FAULT;
}

/* Takes a short item of so many bytes, whose data is this number, read as unsigned and as signed. */
static enum parse_fault take(struct parser *p, uint8_t prefix, uint32_t data, int32_t as_signed, unsigned size)
{
    switch (prefix >> 2) {
    case TAG_INPUT:
        return take_data(p, INPUT, data);
    case TAG_OUTPUT:
        return take_data(p, OUTPUT, data);
    case TAG_FEATURE:
        return take_data(p, FEATURE, data);
    case TAG_COLLECTION:
        return take_collection(p);
    case TAG_END_COLLECTION:
        return take_end(p);
    case TAG_REPORT_ID:
        return take_id(p, data);
    case TAG_PUSH:
        return push(p);
    case TAG_POP:
        return pop(p);
    case TAG_USAGE:
        return add_usages(p, data, data, size == 4);
    case TAG_USAGE_MINIMUM:
        return take_half(p, true, data, size == 4);
    case TAG_USAGE_MAXIMUM:
        return take_half(p, false, data, size == 4);
    case TAG_DELIMITER:
        return DELIMITER;
    default:
        return take_number(p, prefix, data, as_signed);
    }
}

/* How many bytes an item has with its data; `left` are there. */
static size_t size_of(const uint8_t *item, size_t left)
{
    if (*item == LONG_ITEM)
        return left > 1 ? 3u + item[1] : 3;
    return 1 + ((1u << (*item & 3)) >> 1);
}

/* Takes an item of so many bytes. A long one says nothing (HID 1.11, section 6.2.2.3). */
static enum parse_fault take_item(struct parser *p, const uint8_t *item, size_t size)
{
    uint32_t data = 0;
    int32_t as_signed = 0;
    switch (size) {
    case 2:
        data = item[1];
        as_signed = (int8_t)item[1];
        break;
    case 3:
        data = item[1] | item[2] << 8;
        as_signed = (int16_t)data;
        break;
    case 5:
        data = item[1] | item[2] << 8 | item[3] << 16 | (uint32_t)item[4] << 24;
        as_signed = data;
    }
    return *item == LONG_ITEM ? NO_FAULT : take(p, *item, data, as_signed, size - 1);
}

/* Takes item after item, and gives the first fault with its offset. */
static enum parse_fault take_text(struct parser *p, const uint8_t *text, size_t length, size_t *offset)
{
    size_t at = 0;
    while (at < length) {
        size_t size = size_of(text + at, length - at);
        enum parse_fault fault = size > length - at ? TRUNCATED : take_item(p, text + at, size);
        *offset = at;
        if (fault && !(fault == NO_MEMORY && at + size > LONGEST_TEXT))
            return fault;
        at += size;
        *offset = LONGEST_TEXT;
        if (at > LONGEST_TEXT)
            return TOO_LONG;
    }
    *offset = at;
    return p->collections ? COLLECTION_OPEN : NO_FAULT;
}

/* Links the fields of each report, the last one first. */
static void link(struct descriptor *out)
{
    for (uint32_t place = out->field_count; place-- > 0;) {
        struct field *field = out->fields + place;
        uint16_t *first = &out->reports[field->id].first[field->kind];
        field->next = *first;
        *first = place;
    }
}

enum parse_fault parse(const uint8_t *text, size_t length, struct descriptor *descriptor, size_t *offset)
{
    struct parser p;
    memset(&p, 0, offsetof(struct parser, saved));
    memset(&p.pushes, 0, sizeof p - offsetof(struct parser, pushes));
    enum parse_fault fault = take_text(&p, text, length, offset);
    if (fault)
        drop_descriptor(&p.out);
    else
        link(&p.out);
    *descriptor = p.out;
    return fault;
}

void drop_descriptor(struct descriptor *descriptor)
{
    free(descriptor->fields);
    free(descriptor->ranges);
    free(descriptor->reports);
    *descriptor = (struct descriptor){ 0 };
}
