// SPDX-License-Identifier: MIT OR Apache-2.0
/* Requests for memory that are refused, for tests that the linker gives these calls in place of the C library's (--wrap). */
#ifndef REFUSING_H
#define REFUSING_H

#include <stddef.h>
#include <stdint.h>

void *__real_malloc(size_t size);
void *__real_calloc(size_t count, size_t size);
void *__real_realloc(void *old, size_t size);
int __real_posix_memalign(void **into, size_t alignment, size_t size);

/* How many requests are granted before all are refused, and how many there were. */
static size_t granted = SIZE_MAX, requests;

static int refuses(void) { return requests++ >= granted; }

void *__wrap_malloc(size_t size) { return refuses() ? NULL : __real_malloc(size); }
void *__wrap_calloc(size_t count, size_t size) { return refuses() ? NULL : __real_calloc(count, size); }
void *__wrap_realloc(void *old, size_t size) { return refuses() ? NULL : __real_realloc(old, size); }
int __wrap_posix_memalign(void **into, size_t alignment, size_t size) {
    return refuses() ? 12 : __real_posix_memalign(into, alignment, size);
}

/* What a call comes to when so many requests are granted. */
#define GRANTED(count, status, call)    \
    do {                                \
        granted = (count);              \
        requests = 0;                   \
        (status) = (call);              \
        granted = SIZE_MAX;             \
    } while (0)

#endif
