/* A Cortex-M program under qemu-arm, without a C library's start: its entry, and Linux's calls by `svc`. */
#include "calls.h"
#include "system.h"
#include <string.h>

enum { EXIT = 1, WRITE = 4 };

static long call(long number, long a, long b, long c)
{
    register long r0 __asm("r0") = a;
    register long r1 __asm("r1") = b;
    register long r2 __asm("r2") = c;
    register long r7 __asm("r7") = number;
    __asm volatile("svc 0" : "+r"(r0) : "r"(r1), "r"(r2), "r"(r7) : "memory");
    return r0;
}

void put(const char *text) { call(WRITE, 1, (long)text, strlen(text)); }

void put_number(unsigned n)
{
    char digits[12], *first = digits + 11;
    *first = 0;
    do
        *--first = '0' + n % 10;
    while (n /= 10);
    put(first);
}

void _start(void)
{
    make_calls();
    call(EXIT, 0, 0, 0);
    for (;;) {
    }
}
