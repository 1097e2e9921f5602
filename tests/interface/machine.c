/* The session of document 01, the examples of its table of refusals, the access question, chains of 8 steps
 * and of 9, imports by the area that defines, and adds that are taken back. */
#include "tests.h"

#include <string.h>

const struct line session[SESSION] = {
    {{1, 0, 1, 0}, 0},   {{1, 0, 2, 0}, 0},  {{5, 0, 1, 2}, 0},  {{5, 0, 0, 2}, 0},
    {{7, 0, 1, 9}, 0},   {{9, 0, 0, 9}, 10}, {{11, 0, 1, 9}, 0}, {{9, 0, 0, 9}, 0},
    {{12, 0, 1, 9}, 11}, {{3, 0, 0, 4}, 0},  {{10, 4, 0, 9}, 0}, {{6, 4, 0, 2}, 0},
};

void run_session(struct guarded *site, size_t lines)
{
    size_t i;

    found(site);
    for (i = 0; i < lines; i++)
        step(site, session[i].instruction, session[i].answer);
}

/* `state 2 3 1 4 1 0 1`, each number and pair in its place. */
static void test_session(void)
{
    uint8_t expected[PANELRIGHTS_STATE_BYTES] = {0};
    struct guarded site;

    run_session(&site, 8);
    CHECK_NUMBER(ask(&site, 0, 9), 2);
    CHECK_NUMBER(ask(&site, 1, 9), 0);
    CHECK_NUMBER(ask(&site, 2, 9), 1);

    run_session(&site, 12);
    SET(expected, USER_AT(0), USER_AT(4));
    SET(expected, AREA_AT(0), AREA_AT(1), AREA_AT(2));
    SET(expected, OBJECT_AT(9));
    SET(expected, OWNER_AT(0, 0), OWNER_AT(0, 1), OWNER_AT(0, 2), OWNER_AT(4, 0));
    SET(expected, DEFINITION_AT(9, 1), STRUCTURE_AT(1, 2), EXPORT_AT(9, 1));
    CHECK(memcmp(site.state, expected, sizeof expected) == 0);
    CHECK_NUMBER(ask(&site, 0, 9), PANELRIGHTS_NO_ACCESS);
}

/* So many instructions that are accepted, and one that is refused. */
static const struct {
    size_t accepted;
    uint8_t lines[6][4];
    uint8_t refusal;
} examples[] = {
    {0, {{13, 0, 0, 0}}, PANELRIGHTS_UNKNOWN_CODE},
    {0, {{0, 255, 255, 255}}, PANELRIGHTS_UNKNOWN_CODE},
    {0, {{255, 0, 0, 0}}, PANELRIGHTS_UNKNOWN_CODE},
    {0, {{7, 0, 0, 64}}, PANELRIGHTS_OUT_OF_RANGE},
    {0, {{1, 32, 1, 0}}, PANELRIGHTS_OUT_OF_RANGE},
    {0, {{1, 0, 32, 0}}, PANELRIGHTS_OUT_OF_RANGE},
    {0, {{1, 0, 1, 1}}, PANELRIGHTS_OUT_OF_RANGE},
    {0, {{3, 0, 0, 32}}, PANELRIGHTS_OUT_OF_RANGE},
    {0, {{1, 5, 1, 0}}, PANELRIGHTS_ACTIVATOR_UNLISTED},
    {0, {{7, 0, 6, 0}}, PANELRIGHTS_NOT_LISTED},
    {2, {{1, 0, 1, 0}, {3, 0, 0, 4}, {7, 4, 1, 9}}, PANELRIGHTS_NOT_OWNER},
    {0, {{1, 0, 0, 0}}, PANELRIGHTS_ALREADY_THERE},
    {2, {{1, 0, 1, 0}, {2, 0, 1, 0}, {1, 0, 0, 0}}, PANELRIGHTS_ALREADY_THERE}, /* user 0 stays listed */
    {1, {{7, 0, 0, 9}, {10, 0, 0, 9}}, PANELRIGHTS_NOT_THERE},
    {0, {{4, 0, 0, 0}}, PANELRIGHTS_LAST_ONE},
    {0, {{2, 0, 0, 0}}, PANELRIGHTS_LAST_ONE},
    {2, {{1, 0, 1, 0}, {7, 0, 1, 9}, {2, 0, 1, 0}}, PANELRIGHTS_AREA_IN_USE},
    {2, {{1, 0, 1, 0}, {7, 0, 0, 9}, {9, 0, 1, 9}}, PANELRIGHTS_WOULD_LACK_ACCESS},
    /* Areas 1 and 2 lie in each other, and no chain leads to either. */
    {5,
     {{1, 0, 1, 0}, {1, 0, 2, 0}, {7, 0, 0, 9}, {5, 0, 1, 2}, {5, 0, 2, 1}, {9, 0, 1, 9}},
     PANELRIGHTS_WOULD_LACK_ACCESS},
    /* Area 0 defines object 9, may export it once, and may not import it; 15 comes behind 2, 3, 4 and 5. */
    {1, {{7, 0, 0, 9}, {9, 0, 0, 9}}, PANELRIGHTS_OWN_IMPORT},
    {2, {{5, 0, 0, 0}, {7, 0, 0, 9}, {9, 0, 0, 9}}, PANELRIGHTS_OWN_IMPORT},
    {2, {{7, 0, 0, 9}, {11, 0, 0, 9}, {9, 0, 0, 9}}, PANELRIGHTS_OWN_IMPORT},
    {2, {{7, 0, 0, 9}, {11, 0, 0, 9}, {11, 0, 0, 9}}, PANELRIGHTS_ALREADY_THERE},
    {1, {{7, 0, 0, 9}, {9, 32, 0, 9}}, PANELRIGHTS_OUT_OF_RANGE},
    {1, {{7, 0, 0, 9}, {9, 5, 0, 9}}, PANELRIGHTS_ACTIVATOR_UNLISTED},
    {2, {{7, 0, 0, 9}, {8, 0, 0, 9}, {9, 0, 0, 9}}, PANELRIGHTS_NOT_LISTED},
    {3, {{1, 0, 1, 0}, {3, 0, 1, 4}, {7, 0, 0, 9}, {9, 4, 0, 9}}, PANELRIGHTS_NOT_OWNER},
};

static void test_refusals(void)
{
    static const uint8_t list_area[4] = {PANELRIGHTS_LIST_AREA, 0, 1, 0};
    struct guarded site;
    size_t i, line;

    for (i = 0; i < sizeof examples / sizeof *examples; i++) {
        found(&site);
        for (line = 0; line < examples[i].accepted; line++)
            step(&site, examples[i].lines[line], PANELRIGHTS_OK);
        step(&site, examples[i].lines[line], examples[i].refusal);
    }
    run_session(&site, 8);
    step(&site, session[8].instruction, PANELRIGHTS_WOULD_LOSE_ACCESS);
    /* Area 3 listed, no owner. */
    found(&site);
    SET(site.state, AREA_AT(3));
    step(&site, list_area, PANELRIGHTS_UNSOUND_STATE);
}

/* Numbers after line 8 of the session, each with what it is refused as: 0 if it is listed. */
struct edge {
    uint32_t number;
    uint8_t refusal;
};

static const struct edge areas[] = {
    {0, 0},
    {1, 0},
    {2, 0},
    {3, 4},
    {31, 4},
    {32, 2},
    {63, 2},
    {64, 2},
    {255, 2},
    {256, 2},
    {256 + 1, 2},
    {256 + 2, 2},
    {256 + 31, 2},
    {65536, 2},
    {65536 + 1, 2},
    {65536 + 31, 2},
    {1u << 24, 2},
    {(1u << 31) + 1, 2},
    {UINT32_MAX - 255, 2},
    {UINT32_MAX, 2},
};

static const struct edge objects[] = {
    {9, 0},
    {8, 4},
    {31, 4},
    {32, 4},
    {63, 4},
    {64, 2},
    {255, 2},
    {256, 2},
    {256 + 8, 2},
    {256 + 9, 2},
    {256 + 63, 2},
    {65536, 2},
    {65536 + 9, 2},
    {65536 + 63, 2},
    {(1u << 24) + 9, 2},
    {(1u << 31) + 9, 2},
    {UINT32_MAX - 255 + 9, 2},
    {UINT32_MAX, 2},
};

/* The answer for an area and an object: 12 first, then 2, then 4; else so many steps. */
static uint16_t expected_answer(int sound, const struct edge *area, const struct edge *object)
{
    static const uint16_t steps[] = {2, 0, 1};

    if (!sound)
        return 256 + 12;
    if (area->refusal == 2 || object->refusal == 2)
        return 256 + 2;
    if (area->refusal == 4 || object->refusal == 4)
        return 256 + 4;
    return steps[area->number];
}

static void ask_edges(const struct guarded *site, int sound)
{
    size_t i, j;

    for (i = 0; i < sizeof areas / sizeof *areas; i++)
        for (j = 0; j < sizeof objects / sizeof *objects; j++)
            CHECK_NUMBER(ask(site, areas[i].number, objects[j].number),
                         expected_answer(sound, &areas[i], &objects[j]));
}

static void test_access(void)
{
    struct guarded site;

    run_session(&site, 8);
    ask_edges(&site, 1);
    CHECK_NUMBER(panelrights_access(site.state, sizeof site.state - 1, 256, 9), 256 + 12);
    SET(site.state, AREA_AT(3));
    ask_edges(&site, 0);
}

void make_row(struct guarded *site)
{
    static const uint8_t define[4] = {PANELRIGHTS_DEFINE, 0, 0, 9};
    uint8_t area;

    found(site);
    step(site, define, PANELRIGHTS_OK);
    for (area = 0; area < 9; area++) {
        const uint8_t list_next[4] = {PANELRIGHTS_LIST_AREA, 0, area + 1, 0};
        const uint8_t put_into_next[4] = {PANELRIGHTS_ADD_STRUCTURE, 0, area, area + 1};
        const uint8_t add_export[4] = {PANELRIGHTS_ADD_EXPORT, 0, area, 9};

        step(site, list_next, PANELRIGHTS_OK);
        step(site, put_into_next, PANELRIGHTS_OK);
        step(site, add_export, PANELRIGHTS_OK);
    }
}

/*
 * Area 8 is at 8 steps, and area 9 would be at 9. The last three lines: with area 0 in area 2 too it is at 8,
 * and once it imports, that pair must stay.
 */
static const struct line limit[] = {
    {{9, 0, 8, 9}, 0}, {{9, 0, 9, 9}, 10}, {{11, 0, 9, 9}, 10},
    {{5, 0, 0, 2}, 0}, {{9, 0, 9, 9}, 0},  {{6, 0, 0, 2}, 11},
};

static void test_most_steps(void)
{
    struct guarded site;
    uint32_t area;
    size_t i;

    make_row(&site);
    for (area = 0; area < 8; area++)
        CHECK_NUMBER(ask(&site, area, 9), area);
    CHECK_NUMBER(ask(&site, 8, 9), PANELRIGHTS_MOST_STEPS);
    CHECK_NUMBER(ask(&site, 9, 9), PANELRIGHTS_NO_ACCESS);
    for (i = 0; i < sizeof limit / sizeof *limit; i++)
        step(&site, limit[i].instruction, limit[i].answer);
    CHECK_NUMBER(ask(&site, 9, 9), PANELRIGHTS_MOST_STEPS);
    /* An import by 8 steps that is written into the record, and one by 9. */
    make_row(&site);
    SET(site.state, IMPORT_AT(9, 8));
    CHECK_NUMBER(ask(&site, 8, 9), PANELRIGHTS_MOST_STEPS);
    SET(site.state, IMPORT_AT(9, 9));
    CHECK_NUMBER(ask(&site, 8, 9), PANELRIGHTS_ACCESS_REFUSED + PANELRIGHTS_UNSOUND_STATE);
}

/* Code 9 by the definer is refused; with the import written into the record, so is the removal of it. */
static void refuse_own_import(uint8_t area, uint8_t object)
{
    const uint8_t list_area[4] = {PANELRIGHTS_LIST_AREA, 0, area, 0};
    const uint8_t define[4] = {PANELRIGHTS_DEFINE, 0, area, object};
    const uint8_t add_import[4] = {PANELRIGHTS_ADD_IMPORT, 0, area, object};
    const uint8_t remove_import[4] = {PANELRIGHTS_REMOVE_IMPORT, 0, area, object};
    struct guarded site;

    found(&site);
    step(&site, list_area, area == 0 ? PANELRIGHTS_ALREADY_THERE : PANELRIGHTS_OK);
    step(&site, define, PANELRIGHTS_OK);
    step(&site, add_import, PANELRIGHTS_OWN_IMPORT);
    step(&site, remove_import, PANELRIGHTS_NOT_THERE);
    SET(site.state, IMPORT_AT(object, area));
    step(&site, add_import, PANELRIGHTS_UNSOUND_STATE);
    step(&site, remove_import, PANELRIGHTS_UNSOUND_STATE);
    CHECK_NUMBER(ask(&site, area, object), PANELRIGHTS_ACCESS_REFUSED + PANELRIGHTS_UNSOUND_STATE);
}

/*
 * Each area with each object. Then the state after line 8 of the session, in which area 1 defines object 9,
 * with an import of it by area 1: every code and every question is 12.
 */
static void test_own_imports(void)
{
    struct guarded site, given;
    uint8_t code, area, object;

    for (area = 0; area < PANELRIGHTS_AREAS; area++)
        for (object = 0; object < PANELRIGHTS_OBJECTS; object++)
            refuse_own_import(area, object);
    run_session(&site, 8);
    SET(site.state, IMPORT_AT(9, 1));
    given = site;
    for (code = 0; code <= 13; code++) {
        const uint8_t instruction[4] = {code, 0, 1, 9};

        step(&site, instruction, PANELRIGHTS_UNSOUND_STATE);
    }
    ask_edges(&site, 0);
    CHECK(memcmp(&site, &given, sizeof site) == 0);
    flip(site.state, IMPORT_AT(9, 1));
    ask_edges(&site, 1);
}

void make_star(struct guarded *site)
{
    static const uint8_t last[5][4] = {
        {3, 0, 1, 4}, {3, 0, 2, 4}, {9, 0, 1, 0}, {11, 0, 2, 0}, {7, 0, 1, 40},
    };
    uint8_t area, object;
    size_t i;

    found(site);
    for (object = 0; object < 32; object++) {
        const uint8_t define[4] = {PANELRIGHTS_DEFINE, 0, 0, object};
        const uint8_t add_export[4] = {PANELRIGHTS_ADD_EXPORT, 0, 0, object};

        step(site, define, PANELRIGHTS_OK);
        step(site, add_export, PANELRIGHTS_OK);
    }
    for (area = 1; area < 16; area++) {
        const uint8_t list_area[4] = {PANELRIGHTS_LIST_AREA, 0, area, 0};
        const uint8_t put_into_it[4] = {PANELRIGHTS_ADD_STRUCTURE, 0, 0, area};

        step(site, list_area, PANELRIGHTS_OK);
        step(site, put_into_it, PANELRIGHTS_OK);
    }
    for (i = 0; i < sizeof last / sizeof *last; i++)
        step(site, last[i], PANELRIGHTS_OK);
}

/*
 * The six adds, each with how many numbers b may be, and how many are accepted over all a and b: in the
 * founding state and in the row from user 0, in the star from user 0 and from user 4. In the star
 *   code 1: 16 areas are not listed;
 *   code 3: 16 * 32 - 18 owner pairs are not there, and 2 * 32 - 4 of areas 1 and 2;
 *   code 5: 16 * 16 - 15 structure pairs are not there, and all four of areas 1 and 2;
 *   code 7: 31 objects are not listed, for 16 areas and for two;
 *   code 9: areas 1 to 15 may import objects 0 to 31, but for the one import that is there: 15 * 32 - 1, and
 *   2 * 32 - 1 for areas 1 and 2. Area 0, which lies in area 1, may import object 40;
 *   code 11: as many exports, and area 1 may export object 40.
 * In the row areas 1 to 8 may import, and whoever may export does so already.
 */
enum { FOUNDING, ROW, STAR, STAR_BY_4, SITES };
static const struct {
    uint8_t code, numbers;
    unsigned accepted[SITES];
} adds[6] = {
    {PANELRIGHTS_LIST_AREA, 1, {31, 22, 16, 16}},
    {PANELRIGHTS_ADD_OWNER, PANELRIGHTS_USERS, {31, 310, 494, 60}},
    {PANELRIGHTS_ADD_STRUCTURE, PANELRIGHTS_AREAS, {1, 91, 241, 4}},
    {PANELRIGHTS_DEFINE, PANELRIGHTS_OBJECTS, {64, 630, 496, 62}},
    {PANELRIGHTS_ADD_IMPORT, PANELRIGHTS_OBJECTS, {0, 8, 480, 63}},
    {PANELRIGHTS_ADD_EXPORT, PANELRIGHTS_OBJECTS, {0, 0, 480, 64}},
};

/* The matching remove, by this user. */
static void take_back(struct guarded *site, const uint8_t add[4], uint8_t activator, uint8_t refusal)
{
    const uint8_t matching[4] = {add[0] + 1, activator, add[2], add[3]};

    step(site, matching, refusal);
}

/* 1 if the add is accepted: then it changes the record, and its remove gives every byte back. Else 0. */
static unsigned try_add(struct guarded *site, const uint8_t add[4])
{
    const struct guarded before = *site;
    uint8_t refusal = panelrights_step(site->state, sizeof site->state, add[0], add[1], add[2], add[3]);

    if (refusal == PANELRIGHTS_OK) {
        CHECK(memcmp(site->state, before.state, sizeof before.state) != 0);
        take_back(site, add, add[1], PANELRIGHTS_OK);
    }
    CHECK(memcmp(site, &before, sizeof before) == 0);
    return refusal == PANELRIGHTS_OK;
}

static void try_every_add(struct guarded *site, uint8_t activator, size_t column)
{
    uint8_t a, b;
    size_t i;

    for (i = 0; i < sizeof adds / sizeof *adds; i++) {
        unsigned accepted = 0;

        for (a = 0; a < PANELRIGHTS_AREAS; a++)
            for (b = 0; b < adds[i].numbers; b++) {
                const uint8_t add[4] = {adds[i].code, activator, a, b};

                accepted += try_add(site, add);
            }
        CHECK_NUMBER(accepted, adds[i].accepted[column]);
    }
}

static void test_every_add(void)
{
    struct guarded site;

    found(&site);
    try_every_add(&site, 0, FOUNDING);
    make_row(&site);
    try_every_add(&site, 0, ROW);
    make_star(&site);
    try_every_add(&site, 0, STAR);
    try_every_add(&site, 4, STAR_BY_4);
}

/* An add of each code behind the session, where user 4 owns area 0 alone and area 2 is a step from area 1. */
static const uint8_t tried[6][4] = {
    {1, 0, 3, 0}, {3, 0, 1, 5}, {5, 0, 2, 1}, {7, 0, 2, 10}, {9, 0, 2, 9}, {11, 0, 2, 9},
};

/* What is refused behind any of them. */
static const struct line between[] = {
    {{13, 0, 0, 0}, 1}, {{1, 32, 3, 0}, 2}, {{8, 0, 0, 8}, 4},  {{4, 0, 1, 4}, 7},  {{9, 0, 1, 9}, 15},
    {{4, 0, 2, 0}, 8},  {{2, 0, 1, 0}, 9},  {{9, 0, 0, 9}, 10}, {{8, 0, 1, 9}, 11},
};

static void look(const struct guarded *site)
{
    CHECK_NUMBER(ask(site, 0, 9), PANELRIGHTS_NO_ACCESS);
    CHECK_NUMBER(ask(site, 1, 9), 0);
    CHECK_NUMBER(ask(site, 2, 9), 1);
    CHECK_NUMBER(ask(site, 0, 8), PANELRIGHTS_ACCESS_REFUSED + PANELRIGHTS_NOT_LISTED);
    CHECK_NUMBER(ask(site, 32, 9), PANELRIGHTS_ACCESS_REFUSED + PANELRIGHTS_OUT_OF_RANGE);
}

/* Refused instructions and questions between an add and its remove. Users 31 and 4 may not take it back. */
static void test_between(void)
{
    struct guarded site, before;
    size_t i, j;

    run_session(&site, 12);
    before = site;
    for (i = 0; i < sizeof tried / sizeof *tried; i++) {
        step(&site, tried[i], PANELRIGHTS_OK);
        for (j = 0; j < sizeof between / sizeof *between; j++)
            step(&site, between[j].instruction, between[j].answer);
        step(&site, tried[i], PANELRIGHTS_ALREADY_THERE);
        take_back(&site, tried[i], 31, PANELRIGHTS_ACTIVATOR_UNLISTED);
        take_back(&site, tried[i], 4, PANELRIGHTS_NOT_OWNER);
        look(&site);
        take_back(&site, tried[i], 0, PANELRIGHTS_OK);
        CHECK(memcmp(&site, &before, sizeof site) == 0);
    }
}

/* All six on one another, and the last is taken back first: each time the record is that before its add. */
static void test_last_first(void)
{
    struct guarded site, before[6];
    size_t i;

    run_session(&site, 12);
    for (i = 0; i < 6; i++) {
        before[i] = site;
        step(&site, tried[i], PANELRIGHTS_OK);
    }
    while (i-- > 0) {
        take_back(&site, tried[i], 0, PANELRIGHTS_OK);
        CHECK(memcmp(&site, &before[i], sizeof site) == 0);
    }
}

/*
 * User 5 is listed only by the add, and user 4 was before. Last a refused add: its remove takes out what was
 * there before.
 */
static void test_owners_back(void)
{
    static const uint8_t add_5[4] = {PANELRIGHTS_ADD_OWNER, 0, 1, 5};
    static const uint8_t add_4[4] = {PANELRIGHTS_ADD_OWNER, 0, 1, 4};
    struct guarded site;

    run_session(&site, 12);
    CHECK(!PANELRIGHTS_HAS_USER(site.state, 5));
    step(&site, add_5, PANELRIGHTS_OK);
    CHECK(PANELRIGHTS_HAS_USER(site.state, 5) && PANELRIGHTS_OWNS(site.state, 5, 1));
    take_back(&site, add_5, 0, PANELRIGHTS_OK);
    CHECK(!PANELRIGHTS_HAS_USER(site.state, 5) && !PANELRIGHTS_OWNS(site.state, 5, 1));
    take_back(&site, add_5, 0, PANELRIGHTS_NOT_LISTED);

    step(&site, add_4, PANELRIGHTS_OK);
    take_back(&site, add_4, 0, PANELRIGHTS_OK);
    CHECK(PANELRIGHTS_HAS_USER(site.state, 4) && PANELRIGHTS_OWNS(site.state, 4, 0));
    take_back(&site, add_4, 0, PANELRIGHTS_NOT_THERE);

    step(&site, add_5, PANELRIGHTS_OK);
    step(&site, add_5, PANELRIGHTS_ALREADY_THERE);
    take_back(&site, add_5, 0, PANELRIGHTS_OK);
    CHECK(!PANELRIGHTS_HAS_USER(site.state, 5));
}

void test_machine(void)
{
    test_session();
    test_refusals();
    test_access();
    test_most_steps();
    test_own_imports();
    test_every_add();
    test_between();
    test_last_first();
    test_owners_back();
}
