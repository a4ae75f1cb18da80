/* Marks for a trace, which shows when these two functions are called: a sample ends at the first instruction of mark_end. Each
 * name is printed with how many calls its samples hold, and how many samples there are. */
#include "marks.h"
#include "system.h"

static unsigned samples;

__attribute__((noinline)) void mark_begin(void) { __asm volatile("" ::: "memory"); }

__attribute__((noinline)) void mark_end(void) { samples++; }

void told(const char *name, unsigned calls)
{
    put(name);
    put("\t");
    put_number(calls);
    put("\t");
    put_number(samples);
    put("\n");
    samples = 0;
}
