/* Recipes: the opening of a school with all numbers, each refusal of an instruction at each place, adds that
 * are taken back, and the two parts of an answer. */
#include "tests.h"

#include <string.h>

static const struct caller by_0 = {0, {0, 0, 0, 0}};

/* The parameters are the school's area, the hall's, the keyholder and the table. */
static const struct recipe school = {
    9,
    {
        {PANELRIGHTS_LIST_AREA, 1, 0, 0, 0},
        {PANELRIGHTS_LIST_AREA, 1, 1, 0, 0},
        {PANELRIGHTS_ADD_STRUCTURE, 1, 1, 1, 0}, /* the hall lies in the school */
        {PANELRIGHTS_DEFINE, 1, 0, 1, 3},
        {PANELRIGHTS_ADD_IMPORT, 1, 1, 1, 3},    /* the hall borrows the school's table */
        {PANELRIGHTS_ADD_STRUCTURE, 1, 0, 0, 0}, /* the school lies in area 0 */
        {PANELRIGHTS_ADD_EXPORT, 1, 0, 1, 3},    /* and lends the table to it */
        {PANELRIGHTS_ADD_OWNER, 1, 0, 1, 2},
        {PANELRIGHTS_ADD_OWNER, 1, 1, 1, 2},
    },
};

static const struct caller first_school = {0, {1, 2, 4, 9}};

/* The founding state and a school, each bit by hand. */
static void write_school(uint8_t state[PANELRIGHTS_STATE_BYTES], const struct caller *caller)
{
    const uint8_t *p = caller->parameters;

    memset(state, 0, PANELRIGHTS_STATE_BYTES);
    SET(state, USER_AT(0), AREA_AT(0), OWNER_AT(0, 0));
    SET(state, AREA_AT(p[0]), OWNER_AT(0, p[0]));
    SET(state, AREA_AT(p[1]), OWNER_AT(0, p[1]));
    SET(state, STRUCTURE_AT(p[1], p[0]), STRUCTURE_AT(p[0], 0));
    SET(state, OBJECT_AT(p[3]), DEFINITION_AT(p[3], p[0]));
    SET(state, IMPORT_AT(p[3], p[1]), EXPORT_AT(p[3], p[0]));
    SET(state, USER_AT(p[2]), OWNER_AT(p[2], p[0]), OWNER_AT(p[2], p[1]));
}

/* From the founding state: the record by hand, and the one that nine instructions give. */
static void test_school(void)
{
    static const uint8_t singly[9][4] = {
        {1, 0, 1, 0}, {1, 0, 2, 0},  {5, 0, 2, 1}, {7, 0, 1, 9}, {9, 0, 2, 9},
        {5, 0, 1, 0}, {11, 0, 1, 9}, {3, 0, 1, 4}, {3, 0, 2, 4},
    };
    uint8_t expected[PANELRIGHTS_STATE_BYTES];
    struct guarded site, stepped;
    size_t i;

    found(&site);
    expect(&site, &school, &first_school, 0, PANELRIGHTS_OK);
    write_school(expected, &first_school);
    CHECK(memcmp(site.state, expected, sizeof expected) == 0);
    found(&stepped);
    for (i = 0; i < sizeof singly / sizeof *singly; i++)
        step(&stepped, singly[i], PANELRIGHTS_OK);
    CHECK(memcmp(&site, &stepped, sizeof site) == 0);
}

/* User 5 owns area 3 and not area 0: the sixth instruction stops him. Then user 0 opens two schools. */
static void test_school_refused(void)
{
    static const uint8_t list_area[4] = {PANELRIGHTS_LIST_AREA, 0, 3, 0};
    static const uint8_t add_owner[4] = {PANELRIGHTS_ADD_OWNER, 0, 3, 5};
    static const struct caller by_5 = {5, {1, 2, 4, 9}};
    static const struct caller second_school = {0, {6, 7, 4, 10}};
    struct guarded site, given;

    found(&site);
    step(&site, list_area, PANELRIGHTS_OK);
    step(&site, add_owner, PANELRIGHTS_OK);
    given = site;
    expect(&site, &school, &by_5, 6, PANELRIGHTS_NOT_OWNER);
    CHECK(memcmp(&site, &given, sizeof site) == 0);
    expect(&site, &school, &first_school, 0, PANELRIGHTS_OK);
    expect(&site, &school, &first_school, 1, PANELRIGHTS_ALREADY_THERE);
    expect(&site, &school, &second_school, 0, PANELRIGHTS_OK);
    CHECK(PANELRIGHTS_IMPORTED_BY(site.state, 9, 2) && PANELRIGHTS_IMPORTED_BY(site.state, 10, 7));
    CHECK(PANELRIGHTS_OWNS(site.state, 4, 1) && PANELRIGHTS_OWNS(site.state, 4, 6));
}

/* The matching removes, the last add first. */
static struct recipe removes_of(const struct recipe *adds)
{
    struct recipe removes = {adds->count, {{0}}};
    size_t i;

    for (i = 0; i < adds->count; i++) {
        memcpy(removes.entries[i], adds->entries[adds->count - 1 - i], PANELRIGHTS_RECIPE_ENTRY_BYTES);
        removes.entries[i][0]++;
    }
    return removes;
}

/* The bits that recipes have changed in the founding state. */
static uint8_t changed[PANELRIGHTS_STATE_BYTES];

static void note_changed(const uint8_t *founding, const uint8_t *state)
{
    size_t i;

    for (i = 0; i < sizeof changed; i++)
        changed[i] |= founding[i] ^ state[i];
}

/* From the founding state, the adds and then the removes; each time an unknown code at the end stops them
 * first. */
static void add_and_remove(const struct recipe *adds, const struct caller *caller,
                           const uint8_t added[PANELRIGHTS_STATE_BYTES])
{
    const struct recipe removes = removes_of(adds);
    struct recipe stopped_adds = *adds, stopped_removes = removes;
    const unsigned last = (unsigned)adds->count + 1;
    struct guarded site, founding;

    stopped_adds.count = stopped_removes.count = last;
    found(&site);
    founding = site;
    expect(&site, &stopped_adds, caller, last, PANELRIGHTS_UNKNOWN_CODE);
    expect(&site, adds, caller, 0, PANELRIGHTS_OK);
    CHECK(memcmp(site.state, added, PANELRIGHTS_STATE_BYTES) == 0);
    note_changed(founding.state, added);
    expect(&site, &stopped_removes, caller, last, PANELRIGHTS_UNKNOWN_CODE);
    expect(&site, &removes, caller, 0, PANELRIGHTS_OK);
    CHECK(memcmp(&site, &founding, sizeof site) == 0);
}

/* All tables in all schools. Each pair of areas above 0 comes too, and each user with each of these areas. */
static void test_every_school(void)
{
    uint8_t expected[PANELRIGHTS_STATE_BYTES];
    uint8_t area, table;

    for (area = 1; area < PANELRIGHTS_AREAS; area++)
        for (table = 0; table < PANELRIGHTS_OBJECTS; table++) {
            const uint8_t hall = 1 + (area + table % 30) % 31, keyholder = 1 + table % 31;
            const struct caller caller = {0, {area, hall, keyholder, table}};

            write_school(expected, &caller);
            add_and_remove(&school, &caller, expected);
        }
}

/* So with area 0: it lies in area p0 and both lie in themselves, it borrows and lends that area's object p3,
 * and defines object p1, and user p2 owns it. */
static const struct recipe of_area_0 = {
    9,
    {
        {PANELRIGHTS_LIST_AREA, 1, 0, 0, 0},
        {PANELRIGHTS_ADD_STRUCTURE, 0, 0, 1, 0},
        {PANELRIGHTS_ADD_STRUCTURE, 0, 0, 0, 0},
        {PANELRIGHTS_ADD_STRUCTURE, 1, 0, 1, 0},
        {PANELRIGHTS_DEFINE, 1, 0, 1, 3},
        {PANELRIGHTS_ADD_IMPORT, 0, 0, 1, 3},
        {PANELRIGHTS_ADD_EXPORT, 0, 0, 1, 3},
        {PANELRIGHTS_DEFINE, 0, 0, 1, 1},
        {PANELRIGHTS_ADD_OWNER, 0, 0, 1, 2},
    },
};

static void test_area_0(void)
{
    uint8_t lent;

    for (lent = 0; lent < PANELRIGHTS_OBJECTS; lent++) {
        const uint8_t outer = 1 + lent % 31, own = (lent + 1) % 64, owner = 31 - lent % 31;
        const struct caller caller = {0, {outer, own, owner, lent}};
        uint8_t expected[PANELRIGHTS_STATE_BYTES] = {0};

        SET(expected, USER_AT(0), AREA_AT(0), OWNER_AT(0, 0));
        SET(expected, AREA_AT(outer), OWNER_AT(0, outer));
        SET(expected, STRUCTURE_AT(0, outer), STRUCTURE_AT(0, 0), STRUCTURE_AT(outer, outer));
        SET(expected, OBJECT_AT(lent), DEFINITION_AT(lent, outer));
        SET(expected, IMPORT_AT(lent, 0), EXPORT_AT(lent, 0));
        SET(expected, OBJECT_AT(own), DEFINITION_AT(own, 0));
        SET(expected, USER_AT(owner), OWNER_AT(owner, 0));
        add_and_remove(&of_area_0, &caller, expected);
    }
}

/* The first two instructions take out what the founding state has, and the third is refused then: user 0
 * gives area 0 to user 1, and is no longer listed; user 0 leaves area 0 for area 1. */
static void test_founding_left(void)
{
    static const struct recipe recipes[2] = {
        {3, {{3, 0, 0, 0, 1}, {4, 0, 0, 0, 0}, {1, 0, 1, 0, 0}}},
        {3, {{1, 0, 1, 0, 0}, {2, 0, 0, 0, 0}, {7, 0, 0, 0, 9}}},
    };
    static const uint8_t refusals[2] = {PANELRIGHTS_ACTIVATOR_UNLISTED, PANELRIGHTS_NOT_LISTED};
    uint8_t i;

    for (i = 0; i < 2; i++) {
        const uint8_t user = 1 - i, area = i;
        uint8_t expected[PANELRIGHTS_STATE_BYTES] = {0};
        struct recipe recipe = recipes[i];
        struct guarded site, founding;

        found(&site);
        founding = site;
        expect(&site, &recipe, &by_0, 3, refusals[i]);
        recipe.count = 2;
        expect(&site, &recipe, &by_0, 0, PANELRIGHTS_OK);
        SET(expected, USER_AT(user), AREA_AT(area), OWNER_AT(user, area));
        CHECK(memcmp(site.state, expected, sizeof expected) == 0);
        note_changed(founding.state, expected);
    }
}

/* In these three tests each bit changes in a recipe that is accepted, and would in one that is refused. */
static void test_every_bit(void)
{
    size_t i;

    test_every_school();
    test_area_0();
    test_founding_left();
    for (i = 0; i < sizeof changed; i++)
        CHECK_NUMBER(changed[i], 0xff);
}

/*
 * Area 0 defines object 8, and area 3, which lies in area 0, imports it. Area 1 defines object 9. User 0 owns
 * these three areas, users 5 and 6 own area 2.
 */
static void make_site(struct guarded *site)
{
    static const uint8_t lines[][4] = {
        {1, 0, 1, 0}, {7, 0, 1, 9}, {1, 0, 2, 0}, {3, 0, 2, 5}, {3, 0, 2, 6},
        {4, 0, 2, 0}, {7, 0, 0, 8}, {1, 0, 3, 0}, {5, 0, 3, 0}, {9, 0, 3, 8},
    };
    size_t i;

    found(site);
    for (i = 0; i < sizeof lines / sizeof *lines; i++)
        step(site, lines[i], PANELRIGHTS_OK);
}

struct recipe add_owners(uint8_t area)
{
    struct recipe recipe = {PANELRIGHTS_RECIPE_MOST, {{0}}};
    uint8_t i;

    for (i = 0; i < PANELRIGHTS_RECIPE_MOST; i++) {
        const uint8_t entry[PANELRIGHTS_RECIPE_ENTRY_BYTES] = {PANELRIGHTS_ADD_OWNER, 0, area, 0, 16 + i};

        memcpy(recipe.entries[i], entry, sizeof entry);
    }
    return recipe;
}

void put(struct recipe *recipe, size_t place, const uint8_t entry[PANELRIGHTS_RECIPE_ENTRY_BYTES])
{
    memcpy(recipe->entries[place - 1], entry, PANELRIGHTS_RECIPE_ENTRY_BYTES);
}

/* What is refused from user 0 in that site, whoever else owns area 0. */
static const struct {
    uint8_t entry[PANELRIGHTS_RECIPE_ENTRY_BYTES];
    uint8_t number;
} refused[] = {
    {{0, 0, 0, 0, 0}, 1},  {{13, 0, 0, 0, 0}, 1}, {{255, 0, 255, 0, 255}, 1}, {{7, 0, 0, 0, 64}, 2},
    {{1, 0, 4, 0, 1}, 2},  {{7, 0, 6, 0, 0}, 4},  {{7, 0, 2, 0, 10}, 5},      {{1, 0, 0, 0, 0}, 6},
    {{7, 0, 0, 0, 9}, 6},  {{10, 0, 0, 0, 8}, 7}, {{4, 0, 1, 0, 0}, 8},       {{2, 0, 1, 0, 0}, 9},
    {{9, 0, 3, 0, 9}, 10}, {{6, 0, 3, 0, 0}, 11}, {{8, 0, 0, 0, 8}, 11},      {{9, 0, 1, 0, 9}, 15},
};

/* What stands behind the place does not matter: instructions that would be accepted, none, unknown codes. */
static void refuse_at(struct guarded *site, struct recipe recipe, const struct caller *caller, unsigned place,
                      unsigned number)
{
    expect(site, &recipe, caller, place, number);
    recipe.count = place;
    expect(site, &recipe, caller, place, number);
    for (; recipe.count < PANELRIGHTS_RECIPE_MOST; recipe.count++)
        recipe.entries[recipe.count][0] = 255;
    expect(site, &recipe, caller, place, number);
}

static void test_every_place(void)
{
    struct recipe recipe;
    struct guarded site;
    unsigned place, user;
    size_t i;

    make_site(&site);
    for (i = 0; i < sizeof refused / sizeof *refused; i++)
        for (place = 1; place <= PANELRIGHTS_RECIPE_MOST; place++) {
            recipe = add_owners(0);
            put(&recipe, place, refused[i].entry);
            refuse_at(&site, recipe, &by_0, place, refused[i].number);
        }
    recipe = add_owners(0);
    expect(&site, &recipe, &by_0, 0, PANELRIGHTS_OK);
    for (user = 16; user < PANELRIGHTS_USERS; user++)
        CHECK(PANELRIGHTS_OWNS(site.state, user, 0));
}

/* Refusal 3: user 7 is not listed, and user 5 no longer once he has given up his only area. */
static void test_unlisted(void)
{
    static const uint8_t leave[PANELRIGHTS_RECIPE_ENTRY_BYTES] = {PANELRIGHTS_REMOVE_OWNER, 0, 2, 0, 5};
    static const struct caller by_7 = {7, {0, 0, 0, 0}}, by_5 = {5, {0, 0, 0, 0}};
    struct recipe recipe;
    struct guarded site;
    unsigned place;

    make_site(&site);
    refuse_at(&site, add_owners(2), &by_7, 1, PANELRIGHTS_ACTIVATOR_UNLISTED);
    for (place = 1; place < PANELRIGHTS_RECIPE_MOST; place++) {
        recipe = add_owners(2);
        put(&recipe, place, leave);
        refuse_at(&site, recipe, &by_5, place + 1, PANELRIGHTS_ACTIVATOR_UNLISTED);
    }
    recipe = add_owners(2);
    put(&recipe, place, leave);
    expect(&site, &recipe, &by_5, 0, PANELRIGHTS_OK);
    CHECK(!PANELRIGHTS_HAS_USER(site.state, 5) && PANELRIGHTS_HAS_USER(site.state, 30));
}

/*
 * In the state of the good file, where area 1 lends object 9 to area 2: an add of each code, and then the
 * removes. User 5 is listed only by the second add. The last remove once more is refused.
 */
static void test_taken_back(void)
{
    static const struct recipe adds = {
        6,
        {{1, 1, 0, 0, 0},
         {3, 0, 1, 1, 1},
         {5, 0, 2, 1, 0},
         {7, 0, 2, 1, 2},
         {9, 0, 2, 1, 3},
         {11, 0, 2, 1, 3}},
    };
    static const struct caller caller = {0, {3, 5, 10, 9}};
    const struct recipe removes = removes_of(&adds);
    struct recipe recipe = adds;
    struct guarded site, given;
    size_t i;

    for (i = 0; i < removes.count; i++)
        put(&recipe, ++recipe.count, removes.entries[i]);
    found(&site);
    CHECK_NUMBER(panelrights_read_file(good_file, sizeof good_file, site.state, sizeof site.state),
                 PANELRIGHTS_OK);
    given = site;
    expect(&site, &recipe, &caller, 0, PANELRIGHTS_OK);
    CHECK(memcmp(&site, &given, sizeof site) == 0);
    put(&recipe, ++recipe.count, removes.entries[5]);
    expect(&site, &recipe, &caller, 13, PANELRIGHTS_NOT_LISTED);
}

/* Every place beside any number; an argument that is an expression. */
static void test_parts(void)
{
    unsigned place, number;

    for (place = 0; place <= PANELRIGHTS_RECIPE_MOST; place++)
        for (number = 0; number < 256; number++) {
            const uint16_t answer = (uint16_t)(place * 256 + number);

            CHECK_NUMBER(PANELRIGHTS_RECIPE_PLACE(answer), place);
            CHECK_NUMBER(PANELRIGHTS_RECIPE_NUMBER(answer), number);
        }
    CHECK_NUMBER(PANELRIGHTS_RECIPE_PLACE(6 * 256 | 5), 6);
    CHECK_NUMBER(PANELRIGHTS_RECIPE_NUMBER(6 * 256 | 5), 5);
}

void test_recipes(void)
{
    test_school();
    test_school_refused();
    test_every_bit();
    test_every_place();
    test_unlisted();
    test_taken_back();
    test_parts();
}
