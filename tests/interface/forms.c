/* Records that are refused, and what is no recipe; fixed numbers, parameters, codes and activators of every
 * value. */
#include "tests.h"

#include <string.h>

static const struct caller by_0 = {0, {0, 0, 0, 0}};

/* 12 comes first, whatever is wrong beside it, and its place is 0. */
static void refuse_record(uint8_t *state, size_t state_len)
{
    static const uint8_t list_area[5] = {PANELRIGHTS_LIST_AREA, 0, 1, 0, 0}, no_code[5] = {0, 0, 0, 0, 0};
    static const uint8_t no_kind[5] = {1, 2, 1, 0, 0}, no_parameter[5] = {1, 1, 4, 0, 0}, too_long[85] = {0};
    static const struct {
        const uint8_t *recipe;
        size_t length;
    } handed[] = {
        {list_area, 5}, {no_code, 5},   {no_kind, 5}, {no_parameter, 5},
        {list_area, 4}, {too_long, 85}, {NULL, 0},
    };
    size_t i;

    for (i = 0; i < sizeof handed / sizeof *handed; i++) {
        const uint8_t *recipe = handed[i].recipe;
        const size_t recipe_len = handed[i].length;

        CHECK_NUMBER(panelrights_recipe(state, state_len, recipe, recipe_len, 0, 0, 0, 0, 0), 12);
        CHECK_NUMBER(panelrights_recipe(state, state_len, recipe, recipe_len, 255, 255, 255, 255, 255), 12);
    }
}

/* One bit of the record changed; with a recipe that lacks its last byte, and with the recipe. */
static void try_bit(const struct guarded *record, size_t bit, int sound)
{
    const struct recipe recipe = add_owners(0);
    struct guarded site = *record, expected;
    uint8_t user;

    flip(site.state, bit);
    expected = site;
    for (user = 16; sound && user < PANELRIGHTS_USERS; user++)
        SET(expected.state, USER_AT(user), OWNER_AT(user, 0));
    CHECK_NUMBER(obey_bytes(&site, recipe.entries[0], 79, &by_0), sound ? 14 : 12);
    CHECK_NUMBER(obey_bytes(&site, recipe.entries[0], 80, &by_0), sound ? 0 : 12);
    CHECK(memcmp(&site, &expected, sizeof site) == 0);
}

/*
 * Records of another length. Then user 0, area 0 and object 9, which area 0 defines: of all the records that
 * are one bit off, only those are sound in which area 0 lies in itself or exports the object. Last an import
 * by the area that defines; an area without an owner besides; all bits.
 */
static void test_refused_records(void)
{
    static const uint8_t define[4] = {PANELRIGHTS_DEFINE, 0, 0, 9};
    struct guarded site;
    size_t bit;

    with_other_lengths(refuse_record);
    found(&site);
    step(&site, define, PANELRIGHTS_OK);
    for (bit = 0; bit < BITS; bit++)
        try_bit(&site, bit, bit == STRUCTURE_AT(0, 0) || bit == EXPORT_AT(9, 0));
    SET(site.state, IMPORT_AT(9, 0));
    refuse_record(site.state, sizeof site.state);
    SET(site.state, AREA_AT(3));
    refuse_record(site.state, sizeof site.state);
    memset(site.state, 0xff, sizeof site.state);
    refuse_record(site.state, sizeof site.state);
}

/* Users 1 to 20 become owners of area 0: each number of bytes of that, from the founding state. */
static void test_lengths(void)
{
    uint8_t bytes[100], expected[PANELRIGHTS_STATE_BYTES];
    struct guarded site;
    uint8_t user;
    size_t length;

    for (user = 1; user <= 20; user++) {
        const uint8_t entry[PANELRIGHTS_RECIPE_ENTRY_BYTES] = {PANELRIGHTS_ADD_OWNER, 0, 0, 0, user};

        memcpy(bytes + (user - 1) * sizeof entry, entry, sizeof entry);
    }
    for (length = 0; length <= sizeof bytes; length++) {
        const int fits = length % 5 == 0 && length >= 5 && length <= 80;

        found(&site);
        memcpy(expected, site.state, sizeof expected);
        for (user = 1; fits && user <= length / 5; user++)
            SET(expected, USER_AT(user), OWNER_AT(user, 0));
        CHECK_NUMBER(obey_bytes(&site, bytes, length, &by_0),
                     fits ? PANELRIGHTS_OK : PANELRIGHTS_RECIPE_FORM);
        CHECK(memcmp(site.state, expected, sizeof expected) == 0);
    }
    CHECK_NUMBER(panelrights_recipe(site.state, sizeof site.state, NULL, 0, 0, 0, 0, 0, 0), 14);
    CHECK(memcmp(site.state, expected, sizeof expected) == 0);
}

/* Lengths of which some would fit in 8 or 16 bits: zeros; a good instruction with zeros behind it. */
static void test_long(void)
{
    static const uint8_t list_area[PANELRIGHTS_RECIPE_ENTRY_BYTES] = {PANELRIGHTS_LIST_AREA, 0, 1, 0, 0};
    static const size_t lengths[] = {105, 160, 256 + 5, 256 + 80, 1000, 65535, 65536, 65536 + 5, 65536 + 80};
    static uint8_t bytes[65536 + 80];
    struct guarded site, given;
    size_t i;

    found(&site);
    given = site;
    for (i = 0; i < sizeof lengths / sizeof *lengths; i++) {
        memset(bytes, 0, sizeof bytes);
        CHECK_NUMBER(panelrights_recipe(site.state, sizeof site.state, bytes, lengths[i], 0, 0, 0, 0, 0), 14);
        memcpy(bytes, list_area, sizeof list_area);
        CHECK_NUMBER(panelrights_recipe(site.state, sizeof site.state, bytes, lengths[i], 0, 0, 0, 0, 0), 14);
    }
    CHECK(memcmp(&site, &given, sizeof site) == 0);
}

/*
 * From the founding state, in which area 0 alone is listed: object 5 is defined in area 0, but for another
 * kind and value, at byte 1 for the area or at byte 3 for the object.
 */
static void try_number(unsigned place, size_t byte, uint8_t kind, uint8_t value)
{
    static const struct caller caller = {0, {0, 31, 32, 64}};
    static const uint8_t define[PANELRIGHTS_RECIPE_ENTRY_BYTES] = {PANELRIGHTS_DEFINE, 0, 0, 0, 5};
    const uint8_t number = kind == 0 ? value : caller.parameters[value % 4];
    struct recipe recipe = add_owners(0);
    struct guarded site;

    found(&site);
    put(&recipe, place, define);
    recipe.entries[place - 1][byte] = kind;
    recipe.entries[place - 1][byte + 1] = value;
    if (kind > 1 || (kind == 1 && value > 3))
        expect(&site, &recipe, &caller, 0, PANELRIGHTS_RECIPE_FORM);
    else if (number > (byte == 1 ? 31 : 63))
        expect(&site, &recipe, &caller, place, PANELRIGHTS_OUT_OF_RANGE);
    else if (byte == 1 && number > 0)
        expect(&site, &recipe, &caller, place, PANELRIGHTS_NOT_LISTED);
    else {
        expect(&site, &recipe, &caller, 0, PANELRIGHTS_OK);
        CHECK(PANELRIGHTS_DEFINED_IN(site.state, byte == 1 ? 5 : number, 0));
    }
}

/* Every kind, and every value with five kinds, at the first, the eighth and the last instruction. */
static void test_kinds(void)
{
    static const unsigned places[] = {1, 8, 16};
    static const uint8_t kinds[] = {0, 1, 2, 128, 255};
    unsigned number;
    size_t i, j, byte;

    for (i = 0; i < sizeof places / sizeof *places; i++)
        for (byte = 1; byte <= 3; byte += 2)
            for (number = 0; number < 256; number++) {
                try_number(places[i], byte, (uint8_t)number, 0);
                for (j = 0; j < sizeof kinds; j++)
                    try_number(places[i], byte, kinds[j], (uint8_t)number);
            }
}

/* What is refused in the founding state as the first instruction. */
static const struct {
    uint8_t entry[PANELRIGHTS_RECIPE_ENTRY_BYTES];
    uint8_t number;
} refused[] = {
    {{0, 0, 0, 0, 0}, 1},  {{13, 0, 0, 0, 0}, 1}, {{255, 0, 255, 0, 255}, 1},
    {{7, 0, 0, 0, 64}, 2}, {{1, 0, 32, 0, 0}, 2}, {{7, 0, 6, 0, 9}, 4},
    {{1, 0, 0, 0, 0}, 6},  {{6, 0, 0, 0, 0}, 7},  {{4, 0, 0, 0, 0}, 8},
};

/* What is no recipe is 14 whatever the first instruction is, and whoever calls. */
static void test_form_first(void)
{
    static const uint8_t misshapen[][PANELRIGHTS_RECIPE_ENTRY_BYTES] = {
        {7, 2, 0, 0, 5}, {7, 255, 0, 0, 5}, {7, 0, 0, 2, 5},  {7, 0, 0, 255, 5},
        {7, 1, 4, 0, 5}, {7, 1, 255, 0, 5}, {7, 0, 0, 1, 4},  {7, 0, 0, 1, 255},
        {0, 2, 0, 0, 0}, {0, 0, 0, 2, 0},   {13, 1, 4, 0, 0}, {255, 0, 0, 1, 255},
    };
    static const struct caller by_nobody = {255, {255, 255, 255, 255}};
    struct guarded site;
    size_t i, j, place;

    found(&site);
    for (i = 0; i < sizeof refused / sizeof *refused; i++) {
        struct recipe recipe = add_owners(0);

        put(&recipe, 1, refused[i].entry);
        expect(&site, &recipe, &by_0, 1, refused[i].number);
        for (j = 0; j < sizeof misshapen / sizeof *misshapen; j++)
            for (place = 1; place <= PANELRIGHTS_RECIPE_MOST; place++) {
                struct recipe none = recipe;

                put(&none, place, misshapen[j]);
                expect(&site, &none, &by_0, 0, PANELRIGHTS_RECIPE_FORM);
                expect(&site, &none, &by_nobody, 0, PANELRIGHTS_RECIPE_FORM);
            }
    }
}

/* Four areas, and each pair of their numbers as an area that defines and an object, fixed or by parameter. */
static void test_parameters(void)
{
    static const struct caller caller = {0, {3, 10, 17, 31}};
    const uint8_t *p = caller.parameters;
    struct guarded listed, site, expected;
    uint8_t a, b, kinds;

    found(&listed);
    expected = listed;
    for (a = 0; a < 4; a++) {
        const struct recipe list_area = {1, {{PANELRIGHTS_LIST_AREA, 1, a, 0, 0}}};

        expect(&listed, &list_area, &caller, 0, PANELRIGHTS_OK);
        SET(expected.state, AREA_AT(p[a]), OWNER_AT(0, p[a]));
        CHECK(memcmp(&listed, &expected, sizeof listed) == 0);
    }
    for (a = 0; a < 4; a++)
        for (b = 0; b < 4; b++)
            for (kinds = 0; kinds < 4; kinds++) {
                const uint8_t of_a = kinds % 2, of_b = kinds / 2;
                const struct recipe define = {
                    1, {{PANELRIGHTS_DEFINE, of_a, of_a ? a : p[a], of_b, of_b ? b : p[b]}}};

                site = expected = listed;
                expect(&site, &define, &caller, 0, PANELRIGHTS_OK);
                SET(expected.state, OBJECT_AT(p[b]), DEFINITION_AT(p[b], p[a]));
                CHECK(memcmp(&site, &expected, sizeof site) == 0);
            }
}

/*
 * One parameter of every value, with areas 0 and 1 listed and owned by user 0: what the numbers below each
 * limit get, at place 1.
 */
static const struct {
    uint8_t entry[PANELRIGHTS_RECIPE_ENTRY_BYTES];
    struct {
        unsigned below;
        uint8_t number;
    } ranges[3];
} by_parameter[] = {
    {{1, 1, 1, 0, 0}, {{2, 6}, {32, 0}, {256, 2}}}, {{1, 0, 2, 1, 0}, {{1, 0}, {256, 2}}},
    {{2, 1, 2, 0, 0}, {{2, 0}, {32, 4}, {256, 2}}}, {{2, 0, 1, 1, 3}, {{1, 0}, {256, 2}}},
    {{3, 1, 3, 0, 5}, {{2, 0}, {32, 4}, {256, 2}}}, {{3, 0, 1, 1, 2}, {{1, 6}, {32, 0}, {256, 2}}},
    {{4, 1, 0, 0, 0}, {{2, 8}, {32, 4}, {256, 2}}}, {{4, 0, 1, 1, 1}, {{1, 8}, {32, 4}, {256, 2}}},
    {{5, 1, 1, 0, 1}, {{2, 0}, {32, 4}, {256, 2}}}, {{5, 0, 0, 1, 0}, {{2, 0}, {32, 4}, {256, 2}}},
    {{6, 1, 2, 0, 1}, {{2, 7}, {32, 4}, {256, 2}}}, {{6, 0, 0, 1, 3}, {{2, 7}, {32, 4}, {256, 2}}},
    {{7, 1, 3, 0, 5}, {{2, 0}, {32, 4}, {256, 2}}}, {{7, 0, 1, 1, 2}, {{64, 0}, {256, 2}}},
    {{8, 1, 0, 0, 5}, {{32, 4}, {256, 2}}},         {{8, 0, 1, 1, 1}, {{64, 4}, {256, 2}}},
    {{9, 1, 1, 0, 5}, {{32, 4}, {256, 2}}},         {{9, 0, 1, 1, 0}, {{64, 4}, {256, 2}}},
    {{10, 1, 2, 0, 5}, {{32, 4}, {256, 2}}},        {{10, 0, 1, 1, 3}, {{64, 4}, {256, 2}}},
    {{11, 1, 3, 0, 5}, {{32, 4}, {256, 2}}},        {{11, 0, 1, 1, 2}, {{64, 4}, {256, 2}}},
    {{12, 1, 0, 0, 5}, {{32, 4}, {256, 2}}},        {{12, 0, 1, 1, 1}, {{64, 4}, {256, 2}}},
};

/* Of the three parameters that are not used two are out of range, and one takes every value. */
static void test_parameter_values(void)
{
    static const uint8_t list_area[4] = {PANELRIGHTS_LIST_AREA, 0, 1, 0};
    struct guarded site, areas;
    unsigned value;
    size_t i, range;

    found(&areas);
    step(&areas, list_area, PANELRIGHTS_OK);
    for (i = 0; i < sizeof by_parameter / sizeof *by_parameter; i++) {
        const uint8_t *entry = by_parameter[i].entry;
        const uint8_t used = entry[1] == 1 ? entry[2] : entry[4];
        struct recipe recipe = {1, {{0}}};

        put(&recipe, 1, entry);
        range = 0;
        for (value = 0; value < 256; value++) {
            struct caller caller = {0, {255, 255, 255, 255}};
            uint8_t number;

            while (value >= by_parameter[i].ranges[range].below)
                range++;
            number = by_parameter[i].ranges[range].number;
            caller.parameters[(used + 1) % 4] = (uint8_t)(value + 1);
            caller.parameters[used] = (uint8_t)value;
            site = areas;
            expect(&site, &recipe, &caller, number == PANELRIGHTS_OK ? 0 : 1, number);
        }
    }
}

/* Every code in the founding state, with 0 for both numbers. */
static void test_codes(void)
{
    static const uint8_t numbers[13] = {1, 6, 8, 6, 8, 0, 7, 0, 4, 4, 4, 4, 4};
    struct guarded site;
    unsigned code;

    for (code = 0; code < 256; code++) {
        const struct recipe recipe = {1, {{(uint8_t)code, 0, 0, 1, 2}}};
        const uint8_t number = code < 13 ? numbers[code] : PANELRIGHTS_UNKNOWN_CODE;

        found(&site);
        expect(&site, &recipe, &by_0, number == PANELRIGHTS_OK ? 0 : 1, number);
    }
}

/* Every activator in the founding state; with a code that is none; and with what is no recipe. */
static void test_activators(void)
{
    static const struct recipe add_owner = {1, {{PANELRIGHTS_ADD_OWNER, 0, 0, 1, 3}}};
    static const struct recipe no_code = {1, {{13, 0, 0, 1, 3}}};
    static const struct recipe no_kind = {1, {{PANELRIGHTS_ADD_OWNER, 0, 0, 3, 3}}};
    struct guarded site;
    unsigned user;

    for (user = 0; user < 256; user++) {
        const struct caller caller = {(uint8_t)user, {0, 0, 0, 9}};
        const uint8_t number = user == 0   ? PANELRIGHTS_OK
                               : user < 32 ? PANELRIGHTS_ACTIVATOR_UNLISTED
                                           : PANELRIGHTS_OUT_OF_RANGE;

        found(&site);
        expect(&site, &no_kind, &caller, 0, PANELRIGHTS_RECIPE_FORM);
        expect(&site, &no_code, &caller, 1, PANELRIGHTS_UNKNOWN_CODE);
        expect(&site, &add_owner, &caller, number == PANELRIGHTS_OK ? 0 : 1, number);
        CHECK_NUMBER(PANELRIGHTS_OWNS(site.state, 9, 0), user == 0);
    }
}

void test_forms(void)
{
    test_refused_records();
    test_lengths();
    test_long();
    test_kinds();
    test_form_first();
    test_parameters();
    test_parameter_values();
    test_codes();
    test_activators();
}
