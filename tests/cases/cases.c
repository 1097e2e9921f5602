#include "cases.h"

#include <stdarg.h>
#include <stdio.h>
#include <stdlib.h>
#include <string.h>

static unsigned long line_number;

const char *next_line(void)
{
    static char line[256];
    size_t length;

    if (fgets(line, sizeof line, stdin) == NULL)
        return NULL;
    line_number++;
    length = strcspn(line, "\n");
    if (line[length] != '\n')
        fail("too long, or without an end: %s", line);
    line[length] = '\0';
    return line;
}

void fail(const char *format, ...)
{
    va_list arguments;

    fprintf(stderr, "line %lu: ", line_number);
    va_start(arguments, format);
    vfprintf(stderr, format, arguments);
    va_end(arguments);
    fprintf(stderr, "\n");
    exit(1);
}

uint8_t *allocate(size_t length)
{
    uint8_t *memory = malloc(length);

    if (memory == NULL && length > 0)
        fail("no memory");
    return memory;
}

void count(const uint8_t *state, unsigned counts[TABLES])
{
    static const size_t starts[TABLES + 1] = {
        USER_AT(0),         AREA_AT(0),      OBJECT_AT(0),    OWNER_AT(0, 0), DEFINITION_AT(0, 0),
        STRUCTURE_AT(0, 0), IMPORT_AT(0, 0), EXPORT_AT(0, 0), BITS,
    };
    size_t table, bit;

    for (table = 0; table < TABLES; table++) {
        counts[table] = 0;
        for (bit = starts[table]; bit < starts[table + 1]; bit++)
            counts[table] += is_set(state, bit);
    }
}
