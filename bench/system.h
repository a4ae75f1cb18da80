/* What the bench asks of the machine that it runs on. */
#ifndef SYSTEM_H
#define SYSTEM_H

void put(const char *text); /* writes a text to standard output */
void put_number(unsigned n);
#endif
