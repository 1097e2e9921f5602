/* What machine.c and files.c share: the lines of standard input, memory, and the counts of a record. */
#ifndef CASES_H
#define CASES_H

#include "../interface/tests.h"

/* The next line of standard input without its end, up to the next call; NULL behind the last. */
const char *next_line(void);

/* Ends the program with status 1, and says why, with the number of the line, on standard error. */
void fail(const char *format, ...) __attribute__((format(printf, 1, 2), noreturn));

/* So many bytes, and none behind them: a tool that watches memory sees a read or a write too far. */
uint8_t *allocate(size_t length);

/* How many users, areas, objects, owner, definition, structure, import and export pairs a record has. */
enum { TABLES = 8 };
void count(const uint8_t *state, unsigned counts[TABLES]);

#endif
