#ifndef CALLS_H
#define CALLS_H

/* Makes all calls of the bench, each between its marks. A wrong answer ends the program. */
void make_calls(void);
#endif
