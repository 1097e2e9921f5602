/* What a record holds; records of another length, with one bit changed, and with each value of each byte. */
#include "tests.h"

#include <string.h>

/* A record of another length, or of a state that is not sound: 12 comes first, whatever is asked; but 31 of a
 * buffer for an explanation comes before it. */
static void refuse_record(uint8_t *state, size_t length)
{
    static const uint8_t partial[1] = {0};
    static uint8_t file[PANELRIGHTS_FILE_MOST], buffer[PANELRIGHTS_EXPLAIN_BYTES];

    CHECK_NUMBER(panelrights_step(state, length, PANELRIGHTS_LIST_AREA, 0, 1, 0), PANELRIGHTS_UNSOUND_STATE);
    CHECK_NUMBER(panelrights_step(state, length, 0, 255, 255, 255), PANELRIGHTS_UNSOUND_STATE);
    CHECK_NUMBER(panelrights_explain_step(state, length, PANELRIGHTS_LIST_AREA, 0, 1, 0),
                 PANELRIGHTS_UNSOUND_STATE);
    CHECK_NUMBER(panelrights_explain_step(state, length, 0, 255, 255, 255), PANELRIGHTS_UNSOUND_STATE);
    CHECK_NUMBER(panelrights_access(state, length, 0, 0),
                 PANELRIGHTS_ACCESS_REFUSED + PANELRIGHTS_UNSOUND_STATE);
    CHECK_NUMBER(panelrights_explain(state, length, 0, 0, buffer, sizeof buffer),
                 PANELRIGHTS_EXPLAIN_REFUSED + PANELRIGHTS_UNSOUND_STATE);
    CHECK_NUMBER(panelrights_explain(state, length, 256, 256, buffer, sizeof buffer),
                 PANELRIGHTS_EXPLAIN_REFUSED + PANELRIGHTS_UNSOUND_STATE);
    CHECK_NUMBER(panelrights_explain(state, length, 0, 0, buffer, sizeof buffer - 1),
                 PANELRIGHTS_EXPLAIN_REFUSED + PANELRIGHTS_BUFFER_LENGTH);
    CHECK_NUMBER(panelrights_write_file(state, length, NULL, 0, file, sizeof file),
                 PANELRIGHTS_WRITE_REFUSED + PANELRIGHTS_UNSOUND_STATE);
    CHECK_NUMBER(panelrights_write_file(state, length, partial, sizeof partial, NULL, 0),
                 PANELRIGHTS_WRITE_REFUSED + PANELRIGHTS_UNSOUND_STATE);
}

static void refuse_length(uint8_t *state, size_t length)
{
    refuse_record(state, length);
    CHECK_NUMBER(panelrights_founding(state, length), PANELRIGHTS_BUFFER_LENGTH);
    CHECK_NUMBER(panelrights_read_file(good_file, sizeof good_file, state, length),
                 PANELRIGHTS_BUFFER_LENGTH);
    CHECK_NUMBER(panelrights_read_file(NULL, 0, state, length), PANELRIGHTS_BUFFER_LENGTH);
}

static void test_founding(void)
{
    uint8_t expected[PANELRIGHTS_STATE_BYTES] = {0};
    struct guarded site;
    size_t i;

    CHECK_NUMBER(panelrights_state_bytes(), PANELRIGHTS_STATE_BYTES);
    found(&site);
    SET(expected, USER_AT(0), AREA_AT(0), OWNER_AT(0, 0));
    CHECK(memcmp(site.state, expected, sizeof expected) == 0);
    for (i = 0; i < GUARD; i++)
        CHECK(site.before[i] == 0xa5 && site.behind[i] == 0xa5);
}

/* Sets and relations as instructions write them. */
static void test_written(void)
{
    static const uint8_t list_area[4] = {PANELRIGHTS_LIST_AREA, 0, 31, 0};
    static const uint8_t define[4] = {PANELRIGHTS_DEFINE, 0, 0, 63};
    static const uint8_t add_owner[4] = {PANELRIGHTS_ADD_OWNER, 0, 0, 1};
    static const uint8_t remove_owner[4] = {PANELRIGHTS_REMOVE_OWNER, 0, 0, 0};
    static const uint8_t no_such_area[4] = {PANELRIGHTS_ADD_EXPORT, 0, 40, 2};
    struct guarded site;

    found(&site);
    CHECK(PANELRIGHTS_HAS_USER(site.state, 0) && !PANELRIGHTS_HAS_USER(site.state, 1));
    CHECK(PANELRIGHTS_OWNS(site.state, 0, 0) && !PANELRIGHTS_OWNS(site.state, 0, 1));
    step(&site, list_area, PANELRIGHTS_OK);
    CHECK(PANELRIGHTS_HAS_AREA(site.state, 31));
    step(&site, define, PANELRIGHTS_OK);
    CHECK(PANELRIGHTS_HAS_OBJECT(site.state, 63));
    step(&site, add_owner, PANELRIGHTS_OK);
    step(&site, remove_owner, PANELRIGHTS_OK);
    CHECK(!PANELRIGHTS_OWNS(site.state, 0, 0));
    /* Area 40 is none, and its place is not that of area 8 of the next object. */
    step(&site, no_such_area, PANELRIGHTS_OUT_OF_RANGE);
    CHECK(!PANELRIGHTS_EXPORTED_BY(site.state, 3, 8));
}

/*
 * User 3 owns area 10. Area 30 lies in area 31 and imports object 63, which area 31 defines and exports: the
 * last bit of the lists and of most relations is 1.
 */
static void make_last(struct guarded *site)
{
    static const uint8_t lines[][4] = {
        {1, 0, 10, 0},  {3, 0, 10, 3},  {1, 0, 30, 0},  {1, 0, 31, 0},  {3, 0, 31, 31},
        {5, 0, 30, 31}, {5, 0, 31, 31}, {7, 0, 31, 63}, {9, 0, 30, 63}, {11, 0, 31, 63},
    };
    size_t i;

    found(site);
    for (i = 0; i < sizeof lines / sizeof *lines; i++)
        step(site, lines[i], PANELRIGHTS_OK);
}

/* The bytes of that record by hand; those between are 0. */
static void test_bytes_of_last(void)
{
    static const uint8_t bytes[PANELRIGHTS_STATE_BYTES] = {
        [0] = 0x09,    [3] = 0x80,                /* users 0, 3 and 31 */
        [4] = 0x01,    [5] = 0x04,   [7] = 0xc0,  /* areas 0, 10, 30 and 31 */
        [15] = 0x80,                              /* object 63 */
        [16] = 0x01,   [17] = 0x04,  [19] = 0xc0, /* user 0 owns all four areas, */
        [29] = 0x04,   [143] = 0x80,              /* user 3 area 10, user 31 area 31 */
        [399] = 0x80,                             /* object 63 is defined in area 31 */
        [523] = 0x80,  [527] = 0x80,              /* areas 30 and 31 lie in area 31 */
        [783] = 0x40,                             /* area 30 imports object 63 */
        [1039] = 0x80,                            /* area 31 exports it */
    };
    struct guarded last;

    make_last(&last);
    CHECK(memcmp(last.state, bytes, sizeof bytes) == 0);
}

/* In how many bits two records differ, and the last of them. */
static unsigned differences(const uint8_t *one, const uint8_t *other, size_t *last)
{
    unsigned count = 0;
    size_t bit;

    for (bit = 0; bit < BITS; bit++)
        if (is_set(one, bit) != is_set(other, bit)) {
            *last = bit;
            count++;
        }
    return count;
}

/* The bits that an instruction of user 0 changes alone. */
static void find_sound(const struct guarded *given, uint8_t sound[BITS])
{
    uint8_t code, a, b;
    size_t bit;

    for (code = PANELRIGHTS_LIST_AREA; code <= PANELRIGHTS_REMOVE_EXPORT; code++)
        for (a = 0; a < PANELRIGHTS_AREAS; a++)
            for (b = 0; b < PANELRIGHTS_OBJECTS; b++) {
                struct guarded site = *given;

                if (panelrights_step(site.state, sizeof site.state, code, 0, a, b) == PANELRIGHTS_OK &&
                    differences(site.state, given->state, &bit) == 1)
                    sound[bit] = 1;
            }
}

/* With this bit changed the record is refused, or user 4 becomes an owner of area 0. */
static void try_bit(const struct guarded *given, size_t bit, int sound)
{
    static const uint8_t add_owner[4] = {PANELRIGHTS_ADD_OWNER, 0, 0, 4};
    struct guarded site = *given, expected;

    flip(site.state, bit);
    expected = site;
    if (sound) {
        SET(expected.state, USER_AT(4), OWNER_AT(4, 0));
        step(&site, add_owner, PANELRIGHTS_OK);
    } else {
        refuse_record(site.state, sizeof site.state);
    }
    CHECK(memcmp(&site, &expected, sizeof site) == 0);
}

/*
 * All records that are one bit off that record, whose users are 0, 3 and 31 and whose areas are 0, 10, 30
 * and 31. Those that are sound are what an instruction gives, and by hand they are 26: with any of 6 owner
 * pairs that are not there, and without those of user 0 and area 10 or 31; with any of 14 structure pairs,
 * and without that of area 31 in itself; without the import; with an export by area 30, and without that by
 * area 31.
 */
static void test_one_bit_off(void)
{
    uint8_t sound[BITS] = {0};
    struct guarded last;
    unsigned count = 0;
    size_t bit;

    make_last(&last);
    find_sound(&last, sound);
    for (bit = 0; bit < BITS; bit++) {
        try_bit(&last, bit, sound[bit]);
        count += sound[bit];
    }
    CHECK_NUMBER(count, 26);
}

void make_full(struct guarded *site)
{
    unsigned object, area;

    found(site);
    memset(site->state, 0xff, sizeof site->state);
    for (object = 0; object < PANELRIGHTS_OBJECTS; object++)
        for (area = 0; area < PANELRIGHTS_AREAS; area++)
            flip(site->state, area == object % 32 ? IMPORT_AT(object, area) : DEFINITION_AT(object, area));
}

/* Without the pair of this bit the record is sound: the add gives the full one, and its remove this one. */
static void lack_pair(const struct guarded *full, size_t bit, const uint8_t add[4])
{
    const uint8_t matching[4] = {add[0] + 1, add[1], add[2], add[3]};
    struct guarded site = *full, lacking;

    flip(site.state, bit);
    lacking = site;
    step(&site, add, PANELRIGHTS_OK);
    CHECK(memcmp(&site, full, sizeof site) == 0);
    step(&site, add, PANELRIGHTS_ALREADY_THERE);
    step(&site, matching, PANELRIGHTS_OK);
    CHECK(memcmp(&site, &lacking, sizeof site) == 0);
}

static void lack_pairs_of(const struct guarded *full, uint8_t first, uint8_t area)
{
    const uint8_t add_owner[4] = {PANELRIGHTS_ADD_OWNER, first == 0, area, first};
    const uint8_t add_structure[4] = {PANELRIGHTS_ADD_STRUCTURE, 0, first, area};
    const uint8_t add_import[4] = {PANELRIGHTS_ADD_IMPORT, 0, area, first};
    const uint8_t add_export[4] = {PANELRIGHTS_ADD_EXPORT, 0, area, first};

    if (first < PANELRIGHTS_USERS) {
        lack_pair(full, OWNER_AT(first, area), add_owner);
        lack_pair(full, STRUCTURE_AT(first, area), add_structure);
    }
    if (area != first % 32)
        lack_pair(full, IMPORT_AT(first, area), add_import);
    else
        try_bit(full, IMPORT_AT(first, area), 0);
    lack_pair(full, EXPORT_AT(first, area), add_export);
    try_bit(full, DEFINITION_AT(first, area), 0);
}

/* All records that are one bit off the full one. Refused are those without a number in a list or a
 * definition, and those with a second definition or an import by the definer. */
static void test_full(void)
{
    struct guarded full;
    uint8_t first, area;
    size_t bit;

    make_full(&full);
    for (bit = USER_AT(0); bit < OWNER_AT(0, 0); bit++)
        try_bit(&full, bit, 0);
    for (first = 0; first < PANELRIGHTS_OBJECTS; first++)
        for (area = 0; area < PANELRIGHTS_AREAS; area++)
            lack_pairs_of(&full, first, area);
}

/* Is the full record sound with this value as this byte? In the lists and the definitions no other is; an
 * import that is not there is by the definer. */
static int is_sound_with(const struct guarded *full, size_t byte, unsigned value)
{
    const unsigned given = full->state[byte];
    const size_t bit = 8 * byte;

    if (bit < OWNER_AT(0, 0) || (bit >= DEFINITION_AT(0, 0) && bit < STRUCTURE_AT(0, 0)))
        return value == given;
    if (bit >= IMPORT_AT(0, 0) && bit < EXPORT_AT(0, 0))
        return (value & ~given) == 0;
    return 1;
}

/* Each value of each byte: area 0 has object 0 itself. Then records of 1,040 equal bytes: in the one of zeros
 * there is no area, and in all others an object is defined in four areas. */
static void test_values(void)
{
    struct guarded full, site;
    unsigned value;
    size_t byte;

    make_full(&full);
    for (value = 0; value < 256; value++) {
        for (byte = 0; byte < PANELRIGHTS_STATE_BYTES; byte++) {
            site = full;
            site.state[byte] = (uint8_t)value;
            CHECK_NUMBER(panelrights_access(site.state, sizeof site.state, 0, 0),
                         is_sound_with(&full, byte, value)
                             ? 0
                             : PANELRIGHTS_ACCESS_REFUSED + PANELRIGHTS_UNSOUND_STATE);
        }
        memset(site.state, (int)value, sizeof site.state);
        refuse_record(site.state, sizeof site.state);
    }
}

void test_records(void)
{
    test_founding();
    test_written();
    test_bytes_of_last();
    with_other_lengths(refuse_length);
    test_one_bit_off();
    test_full();
    test_values();
}
