/* The tests of the C interface, written from include/panelrights.h and documents 01 and 02 alone. */
#ifndef TESTS_H
#define TESTS_H

#include "panelrights.h"

/* A check that does not hold says where it stands, and ends the program with status 1. */
#define CHECK(holds) check((holds) ? 1 : 0, #holds, __FILE__, __LINE__)
#define CHECK_NUMBER(got, expected) check_number((got), (expected), #got, __FILE__, __LINE__)

void check(int holds, const char *what, const char *file, int line);
void check_number(unsigned long got, unsigned long expected, const char *what, const char *file, int line);

/* How many checks there were so far. */
unsigned long checks(void);

/* A number below the limit, from a fixed sequence. */
unsigned draw(unsigned limit);

/* Which bit of a record a number or a pair is, by the header's table: bit 0 is the lowest of byte 0, bit 8
 * that of byte 1. Before version 3 it was the byte of this number. */
enum { BITS = 8 * PANELRIGHTS_STATE_BYTES };
#define USER_AT(user) (8 * 0 + (user))
#define AREA_AT(area) (8 * 4 + (area))
#define OBJECT_AT(object) (8 * 8 + (object))
#define OWNER_AT(user, area) (8 * 16 + (user)*32 + (area))
#define DEFINITION_AT(object, area) (8 * 144 + (object)*32 + (area))
#define STRUCTURE_AT(inner, outer) (8 * 400 + (inner)*32 + (outer))
#define IMPORT_AT(object, area) (8 * 528 + (object)*32 + (area))
#define EXPORT_AT(object, area) (8 * 784 + (object)*32 + (area))

static inline int is_set(const uint8_t *state, size_t bit)
{
    return (state[bit / 8] & 1 << bit % 8) != 0;
}

static inline void flip(uint8_t *state, size_t bit)
{
    state[bit / 8] ^= (uint8_t)(1 << bit % 8);
}

static inline void set_bits(uint8_t *state, const size_t *bits, size_t count)
{
    while (count-- > 0)
        if (!is_set(state, bits[count]))
            flip(state, bits[count]);
}

/* Makes the bits 1: SET(state, AREA_AT(3), OWNER_AT(0, 3)). */
#define SET(state, ...)                                                                                      \
    set_bits((state), (const size_t[]){__VA_ARGS__}, sizeof((const size_t[]){__VA_ARGS__}) / sizeof(size_t))

/* A record with the bytes before and behind it, which no call may write. */
enum { GUARD = 64 };
struct guarded {
    uint8_t before[GUARD];
    uint8_t state[PANELRIGHTS_STATE_BYTES];
    uint8_t behind[GUARD];
};

/* Room for bytes that are lent, with others before and behind them. */
struct lent {
    uint8_t before[GUARD];
    uint8_t bytes[100];
    uint8_t behind[GUARD];
};

/* The founding state between guards. */
void found(struct guarded *site);

/* The founding state after the first lines of document 01's session, whose answers are checked. */
enum { SESSION = 12 };
struct line {
    uint8_t instruction[4];
    uint8_t answer;
};
extern const struct line session[SESSION];
void run_session(struct guarded *site, size_t lines);

/* Areas 0 to 9, each in the next. Areas 0 to 8 export object 9, which area 0 defines. */
void make_row(struct guarded *site);

/*
 * Areas 0 to 15, and area 0 lies in each of the others. It defines objects 0 to 31 and exports them, so the
 * others have access. Area 1 imports object 0, and area 2 exports it. Area 1 defines object 40, which nobody
 * exports. User 0 owns all areas, user 4 areas 1 and 2.
 */
void make_star(struct guarded *site);

/*
 * All that a sound state can have: every number is listed and every pair is there, but that area o % 32 alone
 * defines object o and does not import it. Between any two areas an object can move either way, so that no
 * access rests on a single pair.
 */
void make_full(struct guarded *site);

/* User 0 owns the area, which defines the object. */
void put_object(struct guarded *site, uint8_t object, uint8_t area);

/* The object is lent along the areas, from each to the next: outward, by exports, or inward, by imports. User 0
 * owns them all. */
enum way { OUTWARD, INWARD, BY_TURNS };
void lend_along(struct guarded *site, uint8_t object, enum way way, const uint8_t *areas, size_t count);

/* LEND(&site, 9, OUTWARD, 1, 2, 0): object 9 goes from area 1 to area 2, and from there to area 0. */
#define LEND(site, object, way, ...)                                                                         \
    lend_along((site), (object), (way), (const uint8_t[]){__VA_ARGS__}, sizeof((const uint8_t[]){__VA_ARGS__}))

/* All areas, which user 0 owns, and user 1 one of them. They stand in drawn layers for object 9: it goes from
 * layer to layer, mostly over several areas, for up to 9 steps. So too for objects 0 and 63, if these are to be
 * there. */
void draw_site(struct guarded *site, int for_others);

/* Does the object move from one area to the other in a step? */
int moves(const uint8_t *state, uint32_t object, unsigned from, unsigned to);

/* For each number of steps the areas, a bit each, from which the object gets to the area in so many. */
void find_leading(const uint8_t *state, uint32_t area, uint32_t object,
                  uint32_t leading[PANELRIGHTS_MOST_STEPS + 1]);

/* Hands a founding record over as of each of some other lengths, that of records before version 3 among them,
 * and of length 0 as NULL. Checks that no byte of it changes, and none before or behind it. */
void with_other_lengths(void (*refuse)(uint8_t *state, size_t state_len));

/* Obeys the instruction, checks the answer and, if it is not 0, that no byte is changed; the guards in any
 * case. The reason that is given beforehand is checked too. */
void step(struct guarded *site, const uint8_t instruction[4], uint8_t refusal);

/* Why the instruction is refused: checks that the number is this one, that a pair is named with 11 and with no
 * other, and that no byte is changed. */
uint32_t reason(const struct guarded *site, const uint8_t instruction[4], uint8_t refusal);

/* The access question, and its answer. Checks that the explanation is of the same answer: the first of the
 * chains with as many steps, the counts that are answered for all areas, or the refusal. */
uint16_t ask(const struct guarded *site, uint32_t area, uint32_t object);

/* A recipe: each instruction as code, kind of a, value of a, kind of b, value of b. */
struct recipe {
    size_t count;
    uint8_t entries[PANELRIGHTS_RECIPE_MOST][PANELRIGHTS_RECIPE_ENTRY_BYTES];
};

/* Who calls for a recipe, and with which parameters. */
struct caller {
    uint8_t activator;
    uint8_t parameters[4];
};

/* Hands up to 100 bytes over as a recipe. Checks that they and the guards stay, and unless the answer is 0
 * every byte of the record. */
uint16_t obey_bytes(struct guarded *site, const uint8_t *bytes, size_t length, const struct caller *caller);

/* So with a recipe, whose answer is checked too. */
void expect(struct guarded *site, const struct recipe *recipe, const struct caller *caller, unsigned place,
            unsigned number);

/* A recipe of 16 instructions, by which users 16 to 31 become owners of the area. */
struct recipe add_owners(uint8_t area);

/* Another instruction at this place of the recipe, from 1. */
void put(struct recipe *recipe, size_t place, const uint8_t entry[PANELRIGHTS_RECIPE_ENTRY_BYTES]);

/* A field of a site file's header, and how many bytes an entry of its labels has. */
#define FIELD(number) (number) & 255, (number) >> 8
enum { ENTRY = PANELRIGHTS_LABEL_ENTRY_BYTES };

/* A site file: areas 0 and 1 lie in area 2, object 9 is defined and exported by area 1, imported by area 0.
 */
enum { GOOD_FILE_BYTES = 108 };
extern const uint8_t good_file[GOOD_FILE_BYTES];

/* What a writing is given: any bytes as a record and as a label block, and a buffer of so many bytes. */
struct writing {
    const uint8_t *state;
    size_t state_len;
    const uint8_t *labels;
    size_t labels_len;
    size_t file_len;
};

/* Hands all three over between guards, and NULL for what is empty. Checks that the answer is the length, that
 * the file stands in front of the buffer, and that no other byte is changed. */
void expect_written(const struct writing *writing, const uint8_t *file, size_t length);

/* The same where the answer is a refusal: no byte is changed. */
void expect_refused(const struct writing *writing, uint8_t refusal);

/* An entry of a label block, with a text of so many letters. */
void put_entry(uint8_t entry[PANELRIGHTS_LABEL_ENTRY_BYTES], uint8_t area, uint8_t length);

void test_names(void);
void test_machine(void);
void test_recipes(void);
void test_forms(void);
void test_agreement(void);
void test_explaining(void);
void test_reasons(void);
void test_records(void);
void test_reading(void);
void test_files(void);
void test_writing(void);
void test_blocks(void);
void test_edges(void);

#endif
