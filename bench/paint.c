/* Marks that measure the stack: what lies below it is painted before a sample, and what the sample left unpainted was used. The
 * greatest use of the samples of a name is printed with it, in bytes below the stack of the caller. */
#include "marks.h"
#include "system.h"
#include <stdint.h>

enum { PAINT = 0xa5, DEEP = 8192, NEAR = 16 /* what mark_begin itself may use */ };

static uint8_t *top;
static unsigned most;

__attribute__((noinline)) void mark_begin(void)
{
    uint8_t *sp;
    __asm volatile("mov %0, sp" : "=r"(sp));
    top = sp;
    for (volatile uint8_t *p = sp - NEAR - DEEP; p < sp - NEAR; p++)
        *p = PAINT;
}

__attribute__((noinline)) void mark_end(void)
{
    const volatile uint8_t *p = top - NEAR - DEEP;
    if (*p != PAINT)
        __builtin_trap(); /* deeper than what is painted */
    while (p < top && *p == PAINT)
        p++;
    if (top - p > (int)most)
        most = top - p;
}

void told(const char *name, unsigned calls)
{
    (void)calls;
    put(name);
    put("\t");
    put_number(most);
    put("\n");
    most = 0;
}
