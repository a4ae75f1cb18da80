/* The bench as a program of this machine. */
#include "calls.h"
#include "system.h"
#include <stdio.h>

/* Asked for by the core of Rust, which is built for unwinding; nothing here unwinds. */
void rust_eh_personality(void) {}

void put(const char *text) { fputs(text, stdout); }

void put_number(unsigned n) { printf("%u", n); }

int main(void)
{
    make_calls();
    return 0;
}
