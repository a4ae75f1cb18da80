/* What calls.c says to the one who counts or measures: a trace (trace.c), or painted stacks (paint.c). */
#ifndef MARKS_H
#define MARKS_H

/* What lies between these two is a sample. */
void mark_begin(void);
void mark_end(void);

/* Names the samples since the last name, each of which holds so many calls. */
void told(const char *name, unsigned calls);
#endif
