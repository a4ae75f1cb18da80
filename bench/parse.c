/* Parses a report descriptor in hex and prints what `kbsim parse` prints of it (docs/simulator.md).
 *
 * parse < TEXT */
#include "parser.h"
#include <ctype.h>
#include <inttypes.h>
#include <stdio.h>

enum { MAX_BYTES = 1 << 20, FAULT_INPUT = 1 };

static uint8_t text[MAX_BYTES];

static int digit(int c) { return isdigit(c) ? c - '0' : isxdigit(c) ? tolower(c) - 'a' + 10 : -1; }

static int is_blank(int c) { return c == ' ' || c == '\t' || c == '\r' || c == '\n'; }

/* Reads hex digits, and gives the number of bytes, or -1 where the input is no hex. */
static long read_hex(void)
{
    long digits = 0;
    for (int c; (c = getchar()) != EOF;) {
        if (is_blank(c))
            continue;
        if (digit(c) < 0 || digits == 2L * MAX_BYTES)
            return -1;
        text[digits / 2] = text[digits / 2] << 4 | digit(c);
        digits++;
    }
    return digits % 2 ? -1 : digits / 2;
}

static void print_usages(const struct usage_range *range, const struct usage_range *end)
{
    if (range == end)
        printf("-");
    for (const char *comma = ""; range < end; range++, comma = ",") {
        printf("%s%08" PRIx32, comma, range->first);
        if (range->last != range->first)
            printf("-%08" PRIx32, range->last);
    }
    printf("\n");
}

static void print_field(const struct descriptor *descriptor, uint32_t place)
{
    static const char *const KIND[] = { "input", "output", "feature" };
    const struct field *field = descriptor->fields + place;
    uint32_t begin = place ? field[-1].end : 0;
    printf("%s %u %" PRIu64 " %u %u %" PRId64 " %" PRId64 " %s ", KIND[field->kind], field->id, field->bit, field->size,
           field->count, field->min, field->max, field->array ? "array" : "variable");
    print_usages(descriptor->ranges + begin, descriptor->ranges + field->end);
}

static int print_parsed(size_t length)
{
    struct descriptor descriptor;
    size_t offset;
    enum parse_fault fault = parse(text, length, &descriptor, &offset);
    if (fault) {
        printf("fault parse %d at %zu\n", fault, offset);
        return FAULT_INPUT;
    }
    for (uint32_t place = 0; place < descriptor.field_count; place++)
        print_field(&descriptor, place);
    drop_descriptor(&descriptor);
    return 0;
}

int main(void)
{
    long length = read_hex();
    if (length < 0) {
        printf("fault hex\n");
        return FAULT_INPUT;
    }
    return print_parsed(length);
}
