// SPDX-License-Identifier: MIT OR Apache-2.0
/* A reader of HID report descriptors and of reports (HID 1.11, sections 5.6, 6.2.2 and 8.4). The first calls say what fields
 * there are and which usages are on. Those from hidr_reader_open on say what the fields mean, read the values of reports,
 * and write reports.
 *
 * Each call returns a status: HIDR_OK, or a refusal. A refused call opens and closes no handle, and writes nothing behind a
 * pointer, but for the fault of a text, at HIDR_FAULT, and the number of what hidr_write refuses. If several refusals hold, the
 * first one of this list is returned: HIDR_NULL, HIDR_LENGTH, the handle's, HIDR_OVERLAP, then those that are named at the
 * call, in that order. A call with a pointer may return HIDR_NULL, one with a count or a length HIDR_LENGTH, one with a handle
 * HIDR_NO_HANDLE, HIDR_CLOSED and HIDR_WRONG_KIND.
 *
 * A text is the bytes of a report descriptor. Texts and reports may be any bytes. A pointer that is not null must lead to as
 * many values as its count says. They need no alignment and may overlap (but for what HIDR_OVERLAP refuses), and no pointer
 * is kept. A pointer may be null if its count or length is 0; `error`, `rest` and `which` may always be null.
 * A call with `room` and a pointer `count` writes its first `room` results, and sets *count to how many there are, which
 * may be more.
 *
 * Memory: calls write results to the caller's memory; a name that is returned as a pointer stays valid. Nothing is to be
 * freed; a handle is closed by hidr_close. A call that names HIDR_NO_MEMORY allocates by malloc. So do the views and calls that
 * take memory as they do: without any they end the process. Others allocate nothing. The memory of hidr_parse, of a parser and
 * of hidr_reader_open is kept until the handle is closed. All other is freed before the call ends.
 *
 * Any thread may call at any time. Calls on one handle take turns; those on different handles don't wait for each other, but
 * for the moment in which a slot is taken or given back. A handle may be closed while another thread uses it: that call has
 * ended before, or is refused. Don't call from a signal handler, or in a child between fork and exec. */
#ifndef HID_READER_H
#define HID_READER_H

#include <stddef.h>
#include <stdint.h>

#ifdef __cplusplus
extern "C" {
#endif

/* Handles: numbers, and no pointers. 0 is none, and one that was closed is never given again. */
typedef uint64_t hidr_parser;
typedef uint64_t hidr_descriptor;
typedef uint64_t hidr_reader; /* it may stand wherever a descriptor is wanted */

/* As many may be open at once, parsers, descriptors and readers together. */
#define HIDR_HANDLES 256

/* The status of a call. */
typedef int32_t hidr_status;
enum {
    HIDR_OK = 0,
    HIDR_NULL = 1,          /* a pointer is null that may not be */
    HIDR_LENGTH = 2,        /* a length or a count that nothing in memory has */
    HIDR_NO_HANDLE = 3,     /* the number is no handle that was given */
    HIDR_CLOSED = 4,        /* the handle was closed */
    HIDR_WRONG_KIND = 5,    /* a handle of another kind, as that of a parser where a descriptor is wanted */
    HIDR_FULL = 6,          /* HIDR_HANDLES handles are open */
    HIDR_NO_MEMORY = 7,     /* there was no memory */
    HIDR_FAULT = 8,         /* the text has a fault */
    HIDR_ABSENT = 9,        /* no such field, place or report */
    HIDR_EMPTY_REPORT = 10, /* the report has no byte */
    HIDR_UNKNOWN_ID = 11,   /* report IDs are used, and no input report has the first byte as its ID */
    HIDR_SHORT_REPORT = 12, /* the report is shorter than its descriptor says */
    /* Of a reader: */
    HIDR_UNKNOWN_REPORT = 13,  /* the descriptor has no report of this kind and ID */
    HIDR_OTHER_ID = 14,        /* the report that is given begins with another ID */
    HIDR_NO_UNUSED = 15,       /* in a new report an array can't say that it names no usage */
    HIDR_UNKNOWN_CONTROL = 16, /* the report does not have this usage so many times, or this field or place */
    HIDR_TWICE = 17,           /* the place is set twice */
    HIDR_NO_NULL = 18,         /* a null, and the field has no Null State, or no value for it */
    HIDR_TOO_LARGE = 19,       /* a number that does not fit */
    HIDR_OUT_OF_RANGE = 20,    /* a value outside the logical extents, or neither 0 nor 1 for a usage of an array */
    HIDR_NO_ROOM = 21,         /* each place of the array names another usage, or none can say that it names no usage */
    HIDR_EQUAL_LIMITS = 22,    /* the logical extents are equal, so that there is no physical value */
    HIDR_INVERTED_LIMITS = 23, /* the same where the Logical Minimum is over the Logical Maximum */
    HIDR_RESERVED_DIGIT = 24,  /* the highest digit of the unit is reserved, and not 0 */
    HIDR_NO_SYSTEM = 25,       /* the unit has exponents, and no system */
    HIDR_RESERVED_SYSTEM = 26, /* the system of the unit is reserved: 5 to 14 */
    HIDR_VENDOR_SYSTEM = 27,   /* the system of the unit is the vendor's: 15 */
    HIDR_OVERLAP = 28,         /* what is read and what is written share memory, and may not */
    HIDR_NO_STEP = 29          /* no value of the field is just so much in its unit, or several are */
};

/* The first fault of a text: 1 to 16, which hidr_fault_name names, and the offset in bytes of the item that it falls on. */
typedef struct hidr_error {
    uint64_t offset;
    uint32_t fault;
} hidr_error;

/* The kinds of reports (HID 1.11, 6.2.2.5). */
enum { HIDR_INPUT = 0, HIDR_OUTPUT = 1, HIDR_FEATURE = 2 };

/* A field of a report: `count` places of `size` bits each (HID 1.11, 6.2.2.5 and 6.2.2.7). */
typedef struct hidr_field {
    uint64_t bit;     /* the first bit, from the least significant one of the byte after the ID byte on */
    int64_t min, max; /* the logical extents */
    uint16_t count;   /* 1 to 1,024 */
    uint8_t kind;     /* HIDR_INPUT, HIDR_OUTPUT or HIDR_FEATURE */
    uint8_t id;       /* the Report ID, 1 to 255; 0 where none is used */
    uint8_t size;     /* 1 to 32 */
    uint8_t array;    /* 1: a place holds the number of a usage, where the first has the number min. 0: a usage's value */
} hidr_field;

/* Usages as they were declared, from the first to the last: the page in the high half of each. One alone has equal ends. Of
 * hidr_strings and the calls beside it: indices of strings or of designators. */
typedef struct hidr_range {
    uint32_t first, last;
} hidr_range;

/* A usage that a report names, with its value: that of a variable field's place; 1 of a place of an array. */
typedef struct hidr_found {
    int64_t value;
    uint32_t usage;
} hidr_found;

/* Parses a whole text of at most 4,096 bytes, and opens a descriptor, to be closed. HIDR_FAULT with the first fault of the
 * text in *error; HIDR_NO_MEMORY; HIDR_FULL. */
hidr_status hidr_parse(const uint8_t *text, size_t length, hidr_descriptor *descriptor, hidr_error *error);

/* Opens a parser for a text that comes in pieces, to be finished or closed. HIDR_FULL. */
hidr_status hidr_parser_open(hidr_parser *parser);

/* Takes the next piece of the text, cut wherever it may be. HIDR_FAULT with the first fault of every text that begins with
 * what was fed, in *error; HIDR_NO_MEMORY. After either of them the parser always returns the same. */
hidr_status hidr_parser_feed(hidr_parser parser, const uint8_t *piece, size_t length, hidr_error *error);

/* Ends the text, closes the parser, and opens its descriptor, to be closed. HIDR_FAULT with the first fault of the text in
 * *error, HIDR_NO_MEMORY: then the parser is still open, to be closed, and always returns the same. */
hidr_status hidr_parser_finish(hidr_parser parser, hidr_descriptor *descriptor, hidr_error *error);

/* Closes the handle of a parser, a descriptor or a reader, and frees its memory. */
hidr_status hidr_close(uint64_t handle);

/* Counts the fields of all reports together: 0 to 256. They stand in the order of the text. */
hidr_status hidr_field_count(hidr_descriptor descriptor, size_t *count);

/* Gets field number `field`, from 0 on. HIDR_ABSENT. */
hidr_status hidr_field_at(hidr_descriptor descriptor, size_t field, hidr_field *into);

/* Gets the usages of a field, as the ranges that were declared. HIDR_ABSENT if there is no such field. */
hidr_status hidr_ranges(hidr_descriptor descriptor, size_t field, hidr_range *into, size_t room, size_t *count);

/* Gets the usage of a place of a variable field, or usage number `place` of an array's list, both from 0 on. The last usage of
 * a variable field serves the places that are left (HID 1.11, 6.2.2.8). HIDR_ABSENT if there is no such field, or no usage at
 * this place. */
hidr_status hidr_usage_at(hidr_descriptor descriptor, size_t field, size_t place, uint32_t *usage);

/* Gets whether reports begin with an ID byte (HID 1.11, 6.2.2.7): sets *uses to 1, else to 0. */
hidr_status hidr_uses_ids(hidr_descriptor descriptor, uint8_t *uses);

/* Gets the length in bytes of the report of this kind and ID (0 where none is used), with its ID byte. HIDR_ABSENT if there
 * is none, or `kind` is no kind. */
hidr_status hidr_report_length(hidr_descriptor descriptor, uint8_t kind, uint8_t id, size_t *bytes);

/* Reads the usages of an input report with their values, in the order of its fields and places (HID 1.11, 8.4). Bytes behind
 * the report are ignored. HIDR_EMPTY_REPORT, HIDR_UNKNOWN_ID, HIDR_SHORT_REPORT, HIDR_NO_MEMORY. */
hidr_status hidr_extract(hidr_descriptor descriptor, const uint8_t *report, size_t length, hidr_found *into, size_t room,
                         size_t *count);

/* Reads the usages of an input report whose value is not 0, in ascending order, each once. It refuses what hidr_extract
 * refuses. */
hidr_status hidr_pressed(hidr_descriptor descriptor, const uint8_t *report, size_t length, uint32_t *into, size_t room,
                         size_t *count);

/* ---- A reader: what fields mean, values, and reports from values. What a descriptor declares, a value in its unit, the
 * values of a report and a report that is written come from a proved source. Names, hidr_value_of and this C interface are
 * tested, not proved. ---- */

/* Parses a whole text of at most 4,096 bytes, and opens a reader, to be closed. HIDR_FAULT with the first fault of the text
 * in *error; HIDR_NO_MEMORY; HIDR_FULL. */
hidr_status hidr_reader_open(const uint8_t *text, size_t length, hidr_reader *reader, hidr_error *error);

/* Does the same in the lenient mode of docs/reader.md, and gets the faults that were passed over, with their offsets: 2, 6, 7
 * or 14. If there are any, offsets of details are those of the text that was read instead. */
hidr_status hidr_reader_open_lenient(const uint8_t *text, size_t length, hidr_reader *reader, hidr_error *error,
                                     hidr_error *passed, size_t room, size_t *count);

/* Stands for no field or no collection. */
#define HIDR_NONE UINT32_MAX

/* Items and fields are counted in two lists, each from 0 on in the order of the text. An item is an Input, Output or Feature
 * item that takes a bit, padding among them: its number is `item`. A field is an item that is not Constant. Its number is
 * `field`, and `control` by HIDR_BY_FIELD. hidr_detail_of gives the item of a field, and hidr_detail.field the field of an
 * item. */

/* The bits of an Input, Output or Feature item (HID 1.11, 6.2.2.5). One that is not set says in this order: Data, Array,
 * Absolute, No Wrap, Linear, Preferred State, no Null State, Non Volatile, Bit Field. */
enum {
    HIDR_CONSTANT = 1,
    HIDR_VARIABLE = 2,
    HIDR_RELATIVE = 4,
    HIDR_WRAPS = 8,
    HIDR_NONLINEAR = 16,
    HIDR_NO_PREFERRED = 32,
    HIDR_NULL_STATE = 64,
    HIDR_VOLATILE = 128,
    HIDR_BUFFERED = 256
};

/* What an Input, Output or Feature item declares (HID 1.11, 6.2.2.4 to 6.2.2.7). */
typedef struct hidr_detail {
    uint64_t offset;                    /* of the item in the text, in bytes */
    uint64_t bit;                       /* as that of hidr_field */
    int64_t min, max;                   /* the logical extents */
    int64_t physical_min, physical_max; /* those that hold: as declared, 0 where one is not, the logical ones where both are 0 */
    int64_t exponent;                   /* the power of ten of the unit: data of 0 to 15 are four bits in two's complement */
    uint32_t flags;                     /* HIDR_CONSTANT and the others */
    uint32_t size, count;               /* `count` places of `size` bits */
    uint32_t unit;                      /* the digits of the unit, 0 where there is none */
    uint32_t field;                     /* its number as hidr_field_at and hidr_ranges have it; HIDR_NONE of padding */
    uint32_t collection;                /* the innermost collection around it; HIDR_NONE */
    uint32_t application;               /* the innermost Application around it; HIDR_NONE */
    uint8_t kind;                       /* HIDR_INPUT, HIDR_OUTPUT or HIDR_FEATURE */
    uint8_t id;                         /* the Report ID; 0 where none is used */
} hidr_detail;

/* Get the number of items, padding among them, and item number `item`, from 0 on. HIDR_ABSENT. */
hidr_status hidr_detail_count(hidr_reader reader, size_t *count);
hidr_status hidr_detail_at(hidr_reader reader, size_t item, hidr_detail *into);

/* Gets the number of the item that is field number `field`. HIDR_ABSENT. */
hidr_status hidr_detail_of(hidr_reader reader, size_t field, size_t *item);

/* A collection (HID 1.11, 6.2.2.6). */
typedef struct hidr_collection {
    uint64_t offset;   /* of the item in the text, in bytes */
    uint32_t type;     /* 0 Physical, 1 Application, 2 Logical, and so on */
    uint32_t usage;    /* the first Usage before it, the page in the high half; 0 where there is none */
    uint32_t outer;    /* the collection right around it; HIDR_NONE */
    uint8_t has_usage; /* 1 where there is a usage */
} hidr_collection;

/* Get the number of collections, and collection number `collection`, from 0 on, in order of declaration. HIDR_ABSENT. */
hidr_status hidr_collection_count(hidr_reader reader, size_t *count);
hidr_status hidr_collection_at(hidr_reader reader, size_t collection, hidr_collection *into);

/* Gets the numbers of the collections around an item, outermost first, at most 16. HIDR_ABSENT if there is no such item. */
hidr_status hidr_around(hidr_reader reader, size_t item, uint32_t *into, size_t room, size_t *count);

/* Gets the numbers of the Application collections, in order. */
hidr_status hidr_applications(hidr_reader reader, uint32_t *into, size_t room, size_t *count);

/* A report: its bits, padding among them, without the ID byte, and its bytes with it. */
typedef struct hidr_report {
    uint64_t bits, bytes;
    uint8_t kind; /* HIDR_INPUT, HIDR_OUTPUT or HIDR_FEATURE */
    uint8_t id;   /* 0 where none is used */
} hidr_report;

/* Gets all reports, in order of their first items. */
hidr_status hidr_reports(hidr_reader reader, hidr_report *into, size_t room, size_t *count);

/* Gets the reports with an item whose innermost Application is this collection; one report may be of several. HIDR_ABSENT if
 * there is no such collection, or it is no Application. */
hidr_status hidr_reports_of(hidr_reader reader, size_t application, hidr_report *into, size_t room, size_t *count);

/* Gets the numbers of the innermost Applications around the items of a report, in order. HIDR_ABSENT if there is no such
 * report. */
hidr_status hidr_applications_of(hidr_reader reader, uint8_t kind, uint8_t id, uint32_t *into, size_t room, size_t *count);

/* Gets the numbers of the items of a report, in order, padding among them. HIDR_ABSENT if there is no such report. */
hidr_status hidr_report_details(hidr_reader reader, uint8_t kind, uint8_t id, uint32_t *into, size_t room, size_t *count);

/* Get the string indices and the designator indices of an item and of a collection, as ranges (HID 1.11, 6.2.2.8). A Minimum or
 * Maximum without its other half gives none; one over the other gives a range whose first number is over its last. The indices
 * belong to the elements in order, and the last one to all elements that are left. HIDR_ABSENT if there is no such item or
 * collection. */
hidr_status hidr_strings(hidr_reader reader, size_t item, hidr_range *into, size_t room, size_t *count);
hidr_status hidr_designators(hidr_reader reader, size_t item, hidr_range *into, size_t room, size_t *count);
hidr_status hidr_collection_strings(hidr_reader reader, size_t collection, hidr_range *into, size_t room, size_t *count);
hidr_status hidr_collection_designators(hidr_reader reader, size_t collection, hidr_range *into, size_t room, size_t *count);

/* Gets the exponents in an item's unit (HID 1.11, 6.2.2.7): of length, mass, time, temperature, current and luminous intensity,
 * -8 to 7, all 0 where there is no unit. HIDR_ABSENT; HIDR_RESERVED_DIGIT, HIDR_NO_SYSTEM, HIDR_RESERVED_SYSTEM,
 * HIDR_VENDOR_SYSTEM: the first of them that holds. */
hidr_status hidr_unit_exponents(hidr_reader reader, size_t item, int8_t *into);

/* Write a name as text that ends with a NUL: as much as fits into `room` characters, the NUL among them. *length is how long
 * the whole is without the NUL. If room is 0 no text is written. That of an item's unit, as "degree", of a collection's type,
 * as "Logical", and of a page, as "LED", is empty where there is none. That of a usage, as "Num Lock", is its page and number
 * where none is known. HIDR_ABSENT if there is no such item or collection. */
hidr_status hidr_unit_name(hidr_reader reader, size_t item, char *into, size_t room, size_t *length);
hidr_status hidr_collection_name(hidr_reader reader, size_t collection, char *into, size_t room, size_t *length);
hidr_status hidr_usage_name(uint32_t usage, char *into, size_t room, size_t *length);
hidr_status hidr_page_name(uint16_t page, char *into, size_t room, size_t *length);

/* Where a value is, by the logical extents of its field (HID 1.11, 5.10 and 6.2.2.5). Outside of them the control of a variable
 * field with Null State has no value: HIDR_IS_NULL. In any other field such a value is HIDR_IS_OUT. */
enum { HIDR_IN_RANGE = 0, HIDR_IS_NULL = 1, HIDR_IS_OUT = 2 };

/* The value of a place of a field. */
typedef struct hidr_value {
    int64_t raw;       /* the number in the bits, in two's complement where the Logical Minimum is negative */
    uint32_t usage;    /* of a variable field that of the place; of an array that which the value names; 0 where there is none */
    uint32_t field;    /* as hidr_field_at counts */
    uint16_t place;    /* from 0 on */
    uint8_t within;    /* HIDR_IN_RANGE, HIDR_IS_NULL or HIDR_IS_OUT */
    uint8_t has_usage; /* 1 where there is a usage */
    uint32_t item;     /* that of the field, as hidr_detail_at counts */
} hidr_value;

/* Reads the values of a report of a kind, in the order of its fields and places (HID 1.11, 5.6 and 8.4). If `rest` is not null,
 * *rest is how many bytes come after the report's end. HIDR_OVERLAP of report and values; HIDR_EMPTY_REPORT,
 * HIDR_UNKNOWN_REPORT, HIDR_SHORT_REPORT. */
hidr_status hidr_read(hidr_reader reader, uint8_t kind, const uint8_t *report, size_t length, hidr_value *into, size_t room,
                      size_t *count, size_t *rest);

/* Reads the bytes of a field of Buffered Bytes in a report, its places one after the other, the last byte filled with 0. It
 * refuses what hidr_read refuses of a report; HIDR_ABSENT if the report has no such field, or it is not of Buffered Bytes;
 * HIDR_NO_MEMORY. */
hidr_status hidr_buffered(hidr_reader reader, uint8_t kind, const uint8_t *report, size_t length, size_t field, uint8_t *into,
                          size_t room, size_t *count);

/* Compares two reports of a kind and ID: gets the usages that are on in `now` alone, and those that are on in `before` alone.
 * Each list is in ascending order, has each usage once, and has its own room and count. On is what an array names, and a
 * variable field's usage whose value is not 0. It refuses what hidr_read refuses of `before`, then of `now`; HIDR_OTHER_ID;
 * HIDR_NO_MEMORY. */
hidr_status hidr_changes(hidr_reader reader, uint8_t kind, const uint8_t *before, size_t before_length, const uint8_t *now,
                         size_t now_length, uint32_t *pressed, size_t pressed_room, size_t *pressed_count, uint32_t *released,
                         size_t released_room, size_t *released_count);

/* numerator / denominator times ten to the power of exponent, in lowest terms; the denominator is at least 1. */
typedef struct hidr_fraction {
    int64_t numerator, denominator, exponent;
} hidr_fraction;

/* Converts a value of a field into its unit, exactly (HID 1.11, 6.2.2.7): on the line through the logical and the physical
 * extents, also past their ends. HIDR_ABSENT; HIDR_EQUAL_LIMITS, HIDR_INVERTED_LIMITS; HIDR_TOO_LARGE if it does not fit into
 * 64 bits, as far outside of extents that are very wide. */
hidr_status hidr_physical(hidr_reader reader, size_t field, int64_t raw, hidr_fraction *into);

/* Finds the value within the logical extents that hidr_physical converts to exactly numerator / denominator, its power of ten
 * counted in. HIDR_ABSENT; HIDR_EQUAL_LIMITS, HIDR_INVERTED_LIMITS; HIDR_NO_STEP where there is none, or not one alone, or
 * the denominator is 0. */
hidr_status hidr_value_of(hidr_reader reader, size_t field, int64_t numerator, uint64_t denominator, int64_t *raw);

/* Writes what hidr_physical gives as a decimal, as a text like a name's: at most 63 characters. It is cut off after `digits`
 * decimals, at most 18. `e` and the power of ten follow where that is beyond 18 either way, or the whole would have more than
 * 38 digits. HIDR_ABSENT; HIDR_EQUAL_LIMITS, HIDR_INVERTED_LIMITS. */
hidr_status hidr_decimal(hidr_reader reader, size_t field, int64_t raw, uint32_t digits, char *into, size_t room, size_t *length);

/* How a setting names its control: by its usage, the page in the high half, or as a place of a field, as hidr_field_at
 * counts. With a usage `place` counts, from 0 on, what has it in the report: each place of a variable field, and each array
 * whose list has it. */
enum { HIDR_BY_USAGE = 0, HIDR_BY_FIELD = 1 };

/* A control of a report, and what it is set to. For a usage of an array 1 puts it into a place that names none, and 0 takes it
 * out of all. */
typedef struct hidr_setting {
    int64_t value;    /* what it is set to, where `null` is 0 */
    uint32_t control; /* the usage, or the field */
    uint32_t place;
    uint8_t by;   /* HIDR_BY_USAGE or HIDR_BY_FIELD */
    uint8_t null; /* 1: no value, where the field has Null State */
} hidr_setting;

/* Writes a report of a kind and ID, 0 where none is used, with `count` controls set: its first `room` bytes. *length is how
 * many it has, the ID byte among them. Each other bit is that of the report `onto`, of `onto_length` bytes, over which the
 * report may be written. If `onto_length` is 0, the report is new. Places with Null State are null then if there is a value for
 * it, places of arrays name no usage, and the rest is 0.
 *
 * It refuses in this order:
 * - HIDR_NO_MEMORY for the settings, HIDR_UNKNOWN_REPORT, HIDR_OTHER_ID, HIDR_SHORT_REPORT, HIDR_NO_MEMORY for the report
 * - HIDR_NO_UNUSED, with the field in *which
 * - the first setting that is refused, with its number in *which
 *
 * A setting is refused by the first of these:
 * - a usage of an array: HIDR_UNKNOWN_CONTROL, HIDR_NO_NULL, HIDR_OUT_OF_RANGE if it is set to neither 0 nor 1, HIDR_TOO_LARGE,
 *   HIDR_OUT_OF_RANGE, HIDR_NO_ROOM if each place names another usage or is set, or none can name none, HIDR_TWICE
 * - all else: HIDR_UNKNOWN_CONTROL, HIDR_TWICE, HIDR_NO_NULL, HIDR_TOO_LARGE, HIDR_OUT_OF_RANGE */
hidr_status hidr_write(hidr_reader reader, uint8_t kind, uint8_t id, const hidr_setting *settings, size_t count,
                       const uint8_t *onto, size_t onto_length, uint8_t *into, size_t room, size_t *length, size_t *which);

/* The same of a usage: sets the first `count` controls that have it to these values. It refuses what hidr_write refuses, where the
 * number of a setting is that of the value. */
hidr_status hidr_write_all(hidr_reader reader, uint8_t kind, uint8_t id, uint32_t usage, const int64_t *values, size_t count,
                           const uint8_t *onto, size_t onto_length, uint8_t *into, size_t room, size_t *length, size_t *which);

/* Reads the value of each control of a report that has a usage, in their order: each place of a variable field, and 1 for each
 * place of an array that names it. It refuses what hidr_read refuses but HIDR_OVERLAP, and takes memory as
 * the views do. */
hidr_status hidr_read_all(hidr_reader reader, uint8_t kind, const uint8_t *report, size_t length, uint32_t usage, int64_t *into,
                          size_t room, size_t *count);

/* Puts a number into the bits of a place of a field of a whole report, whatever the logical extents are; there are devices that
 * declare 0 to 0. No other bit changes. It refuses what hidr_read refuses of the report; HIDR_ABSENT if the report has no such
 * field, or the field no such place; HIDR_TOO_LARGE if the number has more bits. */
hidr_status hidr_put_raw(hidr_reader reader, uint8_t kind, uint8_t *report, size_t length, size_t field, uint16_t place,
                         uint32_t number);

/* Puts bytes into a field of a whole report from its first bit on; no other bit changes, and bits after the field's end have to
 * be 0. HIDR_NO_MEMORY; then it refuses as hidr_put_raw. */
hidr_status hidr_put_bytes(hidr_reader reader, uint8_t kind, uint8_t *report, size_t length, size_t field, const uint8_t *bytes,
                           size_t count);

/* Makes a report of a kind and ID, 0 where none is used, with these bytes after the ID, and 0 where there are fewer: its first
 * `room` bytes. It takes memory as the views do. HIDR_UNKNOWN_REPORT; HIDR_TOO_LARGE if the report has fewer bytes. */
hidr_status hidr_raw_report(hidr_reader reader, uint8_t kind, uint8_t id, const uint8_t *bytes, size_t count, uint8_t *into,
                            size_t room, size_t *length);

/* Views: what a device is, in an input report of it. Each refuses what hidr_read refuses but HIDR_OVERLAP, and takes memory as
 * malloc gives it: without any the process ends.
 *
 * A value of an axis. Where the report has none, or one outside of its extents (but that of a pointer), is_there is 0. Where a
 * number has no meaning, as millimetres where the unit is no length, it is NAN. */
typedef struct hidr_axis {
    double share;       /* between the logical extents, 0 to 1 */
    double centred;     /* from their middle, -1 to 1 */
    double millimetres; /* (HID 1.11, 6.2.2.7) */
    double degrees;
    int64_t raw, min, max; /* the number, and its logical extents */
    uint8_t is_there;
    uint8_t is_relative; /* it is added to the last one */
} hidr_axis;

/* Keys that are down: usages of the keyboard page, the consumer page and the system controls, rising. *is_error is 1 where
 * ErrorRollOver, POSTFail or ErrorUndefined says that the report does not know; it may be null. */
hidr_status hidr_view_keys(hidr_reader reader, const uint8_t *report, size_t length, uint32_t *into, size_t room, size_t *count,
                           uint8_t *is_error);

/* A mouse, a trackball or a touchpad that plays one. Button n is bit n - 1 of the first word, from 65 on of the second. */
typedef struct hidr_pointer {
    hidr_axis x, y;
    int64_t wheel, pan; /* steps away from the user, and to the right */
    uint64_t buttons[2];
} hidr_pointer;
hidr_status hidr_view_pointer(hidr_reader reader, const uint8_t *report, size_t length, hidr_pointer *into);

/* A direction of a hat switch: the step from 0 for up, clockwise, of how many; 0 of 0 at rest. */
typedef struct hidr_hat {
    uint64_t step, of;
} hidr_hat;

/* A slider, a pedal or the like, of Generic Desktop or Simulation Controls. */
typedef struct hidr_control {
    hidr_axis axis;
    uint32_t usage;
} hidr_control;

/* A gamepad, a joystick or a wheel. No descriptor says where an axis rests. */
typedef struct hidr_pad {
    hidr_axis axes[6]; /* X, Y, Z, Rx, Ry, Rz */
    uint64_t buttons[2];
    hidr_hat hats[4];
    hidr_control others[8];
    uint32_t hat_count, other_count; /* how many there are, which may be more */
} hidr_pad;
hidr_status hidr_view_pad(hidr_reader reader, const uint8_t *report, size_t length, hidr_pad *into);

/* A finger on a touch screen or a touchpad. */
typedef struct hidr_contact {
    hidr_axis x, y, pressure;
    int64_t id;       /* Contact Identifier, the same from report to report */
    uint8_t has_id;
    uint8_t touches;  /* Tip Switch */
    uint8_t is_valid; /* Touch Valid: 0 or 1; 2 if the report has none */
} hidr_contact;

/* The contacts of a report: one for each Finger collection, at most so many as Contact Count says where that is not 0. */
hidr_status hidr_view_touch(hidr_reader reader, const uint8_t *report, size_t length, hidr_contact *into, size_t room,
                            size_t *count);

/* A pen. If it is not in range, the other members mean nothing. */
typedef struct hidr_pen {
    hidr_axis x, y, pressure, tilt[2];
    uint8_t in_range, touches, erases, is_inverted;
    uint8_t buttons[2]; /* Barrel Switch, and the second one */
} hidr_pen;
hidr_status hidr_view_pens(hidr_reader reader, const uint8_t *report, size_t length, hidr_pen *into, size_t room, size_t *count);

/* Return the name of a fault, as "EndWithoutCollection", and of a status, as "Closed"; "" of another number. Names
 * stay valid. */
const char *hidr_fault_name(uint32_t fault);
const char *hidr_status_name(hidr_status status);

#ifdef __cplusplus
}
#endif

#endif
