/*
 * Site files: reads the cases on standard input (files.in) and prints what the library says of each. What
 * must come is files.out: every example of the refusals 21 to 29, both sides of each limit, two refusals at
 * once, the largest file, labels, and, behind the cases, a good file with each of its bytes changed in turn.
 *
 * A case is a line: two spaces, a name, a colon, a file (good, lent, row, founding, bare, max, full or none)
 * and changes to it, one space before each. A number is put as the next byte, and @ before a number makes it
 * the place of the next byte. The number after = is the length to which the file is cut, or filled with
 * zeros. With a question mark in place of the colon a label is asked for, and the number after = is the area.
 * A line that begins with no space, and has neither a colon nor a question mark, is a heading.
 */
#include "cases.h"

#include <ctype.h>
#include <stdio.h>
#include <stdlib.h>
#include <string.h>

/* A field of a header: two bytes, the low one first. */
#define FIELD(number) (number) & 255, (number) >> 8

/* clang-format off */

/* A file with all six tables. */
static const uint8_t good[160] = {
    FIELD(1), FIELD(160),
    FIELD(4), FIELD(3), FIELD(4), FIELD(4), FIELD(3), FIELD(3),
    FIELD(28), FIELD(36), FIELD(42), FIELD(50), FIELD(58), FIELD(64),
    0, 0, 0, 2, 1, 1, 31, 31,    /* 28: owners */
    9, 1, 10, 0, 63, 31,         /* 36: definitions */
    0, 2, 1, 2, 2, 31, 31, 31,   /* 42: structure */
    9, 0, 9, 31, 63, 0, 63, 2,   /* 50: imports */
    9, 1, 9, 2, 10, 0,           /* 58: exports */
    0, 4, 'H', 'a', 'l', 'l',    /* 64: the label of area 0 */
    [96] = 1, 1, 'B',            /* 96: that of area 1 */
    [128] = 31, 30,              /* 128: that of area 31, as long as one can be */
    'S', 'u', 'b', 's', 't', 'a', 't', 'i', 'o', 'n', ',', ' ', 'g', 'r', 'o', 'u', 'n', 'd', ' ',
    'f', 'l', 'o', 'o', 'r', ',', ' ', 'e', 'a', 's', 't',
};

/* Area 1 lies in area 0, which defines object 9, and imports it. */
static const uint8_t lent[38] = {
    FIELD(1), FIELD(38),
    FIELD(2), FIELD(1), FIELD(1), FIELD(1), FIELD(0), FIELD(0),
    FIELD(28), FIELD(32), FIELD(34), FIELD(36), FIELD(38), FIELD(38),
    0, 0, 0, 1,
    9, 0,
    1, 0,
    9, 1,
};

/*
 * Areas 0 to 9, each in the next. Areas 0 to 8 export object 9, which area 0 defines: area 8, which imports it
 * too, is at 8 steps, and area 9 would be at 9. Area 0 defines and exports object 10: a pair that a case can
 * change to an export of object 9 by area 9.
 */
static const uint8_t row[124] = {
    FIELD(1), FIELD(124),
    FIELD(10), FIELD(2), FIELD(9), FIELD(1), FIELD(10), FIELD(1),
    FIELD(28), FIELD(48), FIELD(52), FIELD(70), FIELD(72), FIELD(92),
    0, 0, 0, 1, 0, 2, 0, 3, 0, 4, 0, 5, 0, 6, 0, 7, 0, 8, 0, 9,  /* 28: owners */
    9, 0, 10, 0,                                                 /* 48: definitions */
    0, 1, 1, 2, 2, 3, 3, 4, 4, 5, 5, 6, 6, 7, 7, 8, 8, 9,        /* 52: structure */
    9, 8,                                                        /* 70: imports */
    9, 0, 9, 1, 9, 2, 9, 3, 9, 4, 9, 5, 9, 6, 9, 7, 9, 8, 10, 0, /* 72: exports */
    8, 4, 'E', 'a', 's', 't',                                    /* 92: the label of area 8 */
};

static const uint8_t founding[30] = {
    FIELD(1), FIELD(30),
    FIELD(1), FIELD(0), FIELD(0), FIELD(0), FIELD(0), FIELD(0),
    FIELD(28), FIELD(30), FIELD(30), FIELD(30), FIELD(30), FIELD(30),
    0, 0,
};

/* A header, and no table behind it. */
static const uint8_t bare[28] = {
    FIELD(1), FIELD(28),
    FIELD(0), FIELD(0), FIELD(0), FIELD(0), FIELD(0), FIELD(0),
    FIELD(28), FIELD(28), FIELD(28), FIELD(28), FIELD(28), FIELD(28),
};

/* The largest file that is accepted; `complete` writes what stands behind the header. */
static uint8_t largest[13340] = {
    FIELD(1), FIELD(13340),
    FIELD(1024), FIELD(64), FIELD(1024), FIELD(1984), FIELD(2048), FIELD(32),
    FIELD(28), FIELD(2076), FIELD(2204), FIELD(4252), FIELD(8220), FIELD(12316),
};

/* Every count at its limit: the same with the 64 imports more by which an area borrows from itself. */
static uint8_t full[13468] = {
    FIELD(1), FIELD(13468),
    FIELD(1024), FIELD(64), FIELD(1024), FIELD(2048), FIELD(2048), FIELD(32),
    FIELD(28), FIELD(2076), FIELD(2204), FIELD(4252), FIELD(8348), FIELD(12444),
};

/* clang-format on */

/* The area of the object's number, counted round from 32 on. */
static uint8_t definer(uint8_t object)
{
    return object % 32;
}

/* Every area for each first number below the given one, in order; returns where the pairs end. */
static uint8_t *put_pairs(uint8_t *table, uint8_t firsts)
{
    uint8_t first, area;

    for (first = 0; first < firsts; first++) {
        for (area = 0; area < 32; area++) {
            *table++ = first;
            *table++ = area;
        }
    }
    return table;
}

/* The same for each object, without the area that defines it. */
static uint8_t *put_borrowers(uint8_t *table)
{
    uint8_t object, area;

    for (object = 0; object < 64; object++) {
        for (area = 0; area < 32; area++) {
            if (area != definer(object)) {
                *table++ = object;
                *table++ = area;
            }
        }
    }
    return table;
}

/*
 * Each object defined once, every other pair that there can be, and for each area a label, of 1 to 30 letters
 * in turn. An area borrows from itself only if that is asked for.
 */
static void complete(uint8_t *file, int from_itself)
{
    uint8_t *end = put_pairs(file + 28, 32); /* owners */
    uint8_t object, area, i;

    for (object = 0; object < 64; object++) {
        *end++ = object;
        *end++ = definer(object);
    }
    end = put_pairs(end, 32); /* structure */
    end = from_itself ? put_pairs(end, 64) : put_borrowers(end);
    end = put_pairs(end, 64); /* exports */
    for (area = 0; area < 32; area++, end += 32) {
        end[0] = area;
        end[1] = area % 30 + 1;
        for (i = 0; i < end[1]; i++)
            end[2 + i] = (uint8_t)('a' + i % 26);
    }
}

/* In 16 bits the longest length would be that of the founding file. */
enum { ROOM = 65536 + sizeof founding };

/* The file of the case, with zeros behind it. */
static uint8_t room[ROOM];

/* Puts the file of this name into the room, and returns its length. */
static size_t put_file(const char *name, size_t name_length)
{
    static const struct {
        const char *name;
        const uint8_t *bytes;
        size_t length;
    } files[] = {
        {"good", good, sizeof good}, {"lent", lent, sizeof lent},
        {"row", row, sizeof row},    {"founding", founding, sizeof founding},
        {"bare", bare, sizeof bare}, {"max", largest, sizeof largest},
        {"full", full, sizeof full}, {"none", bare, 0},
    };
    size_t i;

    for (i = 0; i < sizeof files / sizeof *files; i++) {
        if (strlen(files[i].name) == name_length && memcmp(files[i].name, name, name_length) == 0) {
            memset(room, 0, sizeof room);
            memcpy(room, files[i].bytes, files[i].length);
            return files[i].length;
        }
    }
    fail("no file has this name: %s", name);
}

/* The number at the front of a text, which then begins behind it. */
static size_t number(const char **text, size_t limit)
{
    char *end;
    unsigned long value = strtoul(*text, &end, 10);

    if (!isdigit((unsigned char)**text) || value > limit)
        fail("not a number up to %lu: %s", (unsigned long)limit, *text);
    *text = end;
    return value;
}

/* Makes the changes, and returns the number after =, at most so large, or the one given. */
static size_t change(const char *changes, size_t most, size_t asked)
{
    size_t at = 0;

    while (*changes != '\0') {
        if (*changes++ != ' ')
            fail("not a change: %s", changes - 1);
        if (*changes == '@') {
            changes++;
            at = number(&changes, ROOM - 1);
        } else if (*changes == '=') {
            changes++;
            asked = number(&changes, most);
        } else if (at < ROOM) {
            room[at++] = (uint8_t)number(&changes, 255);
        } else {
            fail("behind the last place: %s", changes);
        }
    }
    return asked;
}

/* The first bytes of the room, for the caller to free. */
static uint8_t *file_of(size_t length)
{
    uint8_t *file = allocate(length);

    if (length > 0)
        memcpy(file, room, length);
    return file;
}

/* The refusal of a file, 0 for none; beside a refusal the record must be that of the founding state. */
static uint8_t read_room(size_t length, uint8_t state[PANELRIGHTS_STATE_BYTES])
{
    static uint8_t first[PANELRIGHTS_STATE_BYTES];
    uint8_t *file = file_of(length);
    uint8_t refusal;

    memset(state, 0xa5, PANELRIGHTS_STATE_BYTES);
    refusal = panelrights_read_file(file, length, state, PANELRIGHTS_STATE_BYTES);
    free(file);
    panelrights_founding(first, sizeof first);
    if (refusal != PANELRIGHTS_OK && memcmp(state, first, sizeof first) != 0)
        fail("the record beside refusal %d is not that of the founding state", refusal);
    return refusal;
}

/* The refusal, and the counts of the record that comes with it. */
static void tell(size_t length)
{
    uint8_t *state = allocate(PANELRIGHTS_STATE_BYTES);
    unsigned counts[TABLES];
    size_t table;

    printf("%d,", read_room(length, state));
    count(state, counts);
    for (table = 0; table < TABLES; table++)
        printf(" %u", counts[table]);
    printf("\n");
    free(state);
}

/* The area's label: how many bytes, and the bytes. They stand in the file, behind the area and the length. */
static void tell_label(size_t file_length, uint32_t area)
{
    uint8_t *file = file_of(file_length);
    uint32_t label = panelrights_label(file, file_length, area);
    size_t offset = PANELRIGHTS_LABEL_OFFSET(label), length = PANELRIGHTS_LABEL_LENGTH(label);

    if (offset + length > file_length)
        fail("label %lu ends behind the file", (unsigned long)label);
    if (length == 0 && offset != 0)
        fail("label %lu has no text, and is not 0", (unsigned long)label);
    if (length > 0 && (offset < 2 || file[offset - 2] != area || file[offset - 1] != length))
        fail("label %lu is not where the file has it", (unsigned long)label);
    printf("%lu <", (unsigned long)length);
    if (length > 0)
        fwrite(file + offset, 1, length, stdout);
    printf(">\n");
    free(file);
}

/* One line: a heading, a reading, or a question for a label. */
static void obey(const char *line)
{
    size_t mark = strcspn(line, ":?"), length, asked;
    const char *name = line + mark + 2, *changes;
    int asks_label = line[mark] == '?';

    if (line[mark] == '\0' && line[0] != '\0' && line[0] != ' ') {
        printf("%s\n", line);
        return;
    }
    if (strncmp(line, "  ", 2) != 0 || line[mark] == '\0' || line[mark + 1] != ' ')
        fail("this fits no form: %s", line);
    changes = name + strcspn(name, " ");
    length = put_file(name, (size_t)(changes - name));
    asked = asks_label ? change(changes, UINT32_MAX, SIZE_MAX) : change(changes, ROOM, length);
    printf("%.*s: ", (int)mark, line);
    if (!asks_label)
        tell(asked);
    else if (asked <= UINT32_MAX)
        tell_label(length, (uint32_t)asked);
    else
        fail("no area is asked for: %s", line);
}

/* The refusals of the good file with one byte x changed at a time: plus 1, 0 after 255; or made 255 - x. */
static void change_each(int add)
{
    static const struct {
        size_t at;
        const char *name;
    } parts[] = {
        {0, "version and length"}, {4, "counts"},           {16, "offsets"},           {28, "owners"},
        {36, "definitions"},       {42, "structure pairs"}, {50, "imports"},           {58, "exports"},
        {64, "label of area 0"},   {96, "label of area 1"}, {128, "label of area 31"}, {160, NULL},
    };
    uint8_t *state = allocate(PANELRIGHTS_STATE_BYTES);
    size_t part, at, length;

    for (part = 0; parts[part].name != NULL; part++) {
        printf("  %s:", parts[part].name);
        for (at = parts[part].at; at < parts[part + 1].at; at++) {
            length = put_file("good", strlen("good"));
            room[at] = (uint8_t)(add ? room[at] + 1 : 255 - room[at]);
            printf(" %d", read_room(length, state));
        }
        printf("\n");
    }
    free(state);
}

int main(void)
{
    const char *line;

    complete(largest, 0);
    complete(full, 1);
    printf("0 or the refusal; users, areas, objects, owners, definitions, structure pairs, ");
    printf("imports, exports\n");
    while ((line = next_line()) != NULL)
        obey(line);
    printf("refusals of the good file, one byte at a time plus 1, 0 after 255\n");
    change_each(1);
    printf("refusals of the good file, one byte x at a time made 255 - x\n");
    change_each(0);
    return 0;
}
