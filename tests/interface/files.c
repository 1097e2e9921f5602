/* Site files: one that is accepted, document 01's examples of refused ones, and labels. */
#include "tests.h"

#include <string.h>

/* clang-format off */
const uint8_t good_file[GOOD_FILE_BYTES] = {
    FIELD(1), FIELD(GOOD_FILE_BYTES),
    FIELD(3), FIELD(1), FIELD(2), FIELD(1), FIELD(1), FIELD(2),
    FIELD(28), FIELD(34), FIELD(36), FIELD(40), FIELD(42), FIELD(44),
    0, 0, 0, 1, 0, 2, /* 28: user 0 owns areas 0, 1 and 2 */
    9, 1,             /* 34: object 9 is defined in area 1 */
    0, 2, 1, 2,       /* 36: areas 0 and 1 lie in area 2 */
    9, 0,             /* 40: area 0 imports it */
    9, 1,             /* 42: area 1 exports it */
    1, 6, 'L', 'o', 'o', 'p', ' ', '2', /* 44: the label of area 1, and 24 bytes 0 behind it */
    0, 0, 0, 0, 0, 0, 0, 0, 0, 0, 0, 0, 0, 0, 0, 0, 0, 0, 0, 0, 0, 0, 0, 0,
    /* 76: the label of area 2, as long as one can be */
    2, 30, 'S', 'p', 'o', 'r', 't', 's', ' ', 'h', 'a', 'l', 'l', ' ', 'a', 'n', 'd', ' ',
    'c', 'h', 'a', 'n', 'g', 'i', 'n', 'g', ' ', 'r', 'o', 'o', 'm', 's',
};

/* Area 0 imports object 9 of area 1, and there is no structure pair. */
static const uint8_t unreached[36] = {
    FIELD(1), FIELD(36),
    FIELD(2), FIELD(1), FIELD(0), FIELD(1), FIELD(0), FIELD(0),
    FIELD(28), FIELD(32), FIELD(34), FIELD(34), FIELD(36), FIELD(36),
    0, 0, 0, 1,
    9, 1,
    9, 0,
};

/* Area 0 imports object 9, which it defines, and there is nothing else. */
static const uint8_t own_import[34] = {
    FIELD(1), FIELD(34),
    FIELD(1), FIELD(1), FIELD(0), FIELD(1), FIELD(0), FIELD(0),
    FIELD(28), FIELD(30), FIELD(32), FIELD(32), FIELD(34), FIELD(34),
    0, 0,
    9, 0,
    9, 0,
};

/* Areas 1 and 2 lie in each other and import object 9 of area 0, which reaches neither. */
static const uint8_t vouching[44] = {
    FIELD(1), FIELD(44),
    FIELD(3), FIELD(1), FIELD(2), FIELD(2), FIELD(0), FIELD(0),
    FIELD(28), FIELD(34), FIELD(36), FIELD(40), FIELD(44), FIELD(44),
    0, 0, 0, 1, 0, 2,
    9, 0,
    1, 2, 2, 1,
    9, 1, 9, 2,
};
/* clang-format on */

/* The good file with so many bytes from a place on changed to another. */
static const struct {
    size_t place;
    size_t count;
    uint8_t byte;
    uint8_t refusal;
} edits[] = {
    {0, 1, 0, PANELRIGHTS_FILE_VERSION},       /* version 0 */
    {1, 1, 1, PANELRIGHTS_FILE_VERSION},       /* version 257 */
    {2, 1, 106, PANELRIGHTS_FILE_LENGTH},      /* two bytes more than stated */
    {6, 1, 65, PANELRIGHTS_FILE_COUNT},        /* 65 definitions */
    {16, 1, 29, PANELRIGHTS_FILE_OFFSET},      /* owners at 29 */
    {14, 1, 1, PANELRIGHTS_FILE_OFFSET},       /* one label, so the end stands elsewhere */
    {29, 1, 32, PANELRIGHTS_FILE_RANGE},       /* area 32 */
    {45, 31, 0, PANELRIGHTS_FILE_RANGE},       /* a label of length 0 */
    {77, 1, 31, PANELRIGHTS_FILE_RANGE},       /* a label of length 31 */
    {46, 1, 31, PANELRIGHTS_FILE_RANGE},       /* a text byte */
    {75, 1, 32, PANELRIGHTS_FILE_RANGE},       /* a filler byte */
    {31, 1, 0, PANELRIGHTS_FILE_ORDER},        /* a pair twice */
    {76, 1, 5, PANELRIGHTS_FILE_LISTS},        /* a label for area 5, unlisted */
    {37, 1, 5, PANELRIGHTS_FILE_LISTS},        /* area 0 lies in area 5, unlisted */
    {39, 1, 1, PANELRIGHTS_FILE_LACKS_ACCESS}, /* area 1 lies in itself and no longer in area 2 */
    {41, 1, 1, PANELRIGHTS_FILE_LACKS_ACCESS}, /* area 1 imports the object, which it defines */
};

/* The file is refused with the number, the record is that of the founding state, no area has a label, and
 * there is no label block. */
static void refuse(const uint8_t *file, size_t file_len, uint8_t refusal)
{
    struct guarded site, founding;
    uint32_t area;

    found(&founding);
    memset(&site, 0xa5, sizeof site);
    CHECK_NUMBER(panelrights_read_file(file, file_len, site.state, sizeof site.state), refusal);
    CHECK(memcmp(&site, &founding, sizeof site) == 0);
    for (area = 0; area < 4; area++) {
        CHECK_NUMBER(panelrights_label(file, file_len, area), 0);
        CHECK_NUMBER(panelrights_label(file, file_len, 256 + area), 0);
    }
    CHECK_NUMBER(panelrights_labels(file, file_len), 0);
}

static void test_refused(void)
{
    uint8_t file[GOOD_FILE_BYTES + 2] = {0};
    static uint8_t wrapped[65536 + GOOD_FILE_BYTES];
    size_t i;

    refuse(NULL, 0, PANELRIGHTS_FILE_TOO_SHORT);
    refuse(good_file, 27, PANELRIGHTS_FILE_TOO_SHORT);
    refuse(unreached, sizeof unreached, PANELRIGHTS_FILE_LACKS_ACCESS);
    refuse(vouching, sizeof vouching, PANELRIGHTS_FILE_LACKS_ACCESS);
    refuse(own_import, sizeof own_import, PANELRIGHTS_FILE_LACKS_ACCESS);
    for (i = 0; i < sizeof edits / sizeof *edits; i++) {
        memcpy(file, good_file, sizeof good_file);
        memset(file + edits[i].place, edits[i].byte, edits[i].count);
        refuse(file, sizeof good_file, edits[i].refusal);
    }
    memcpy(file, good_file, sizeof good_file);
    refuse(file, sizeof good_file + 2, PANELRIGHTS_FILE_LENGTH);
    refuse(file, sizeof good_file - 1, PANELRIGHTS_FILE_LENGTH);
    /* In 16 bits this length would be the one stated. */
    memcpy(wrapped, good_file, sizeof good_file);
    refuse(wrapped, sizeof wrapped, PANELRIGHTS_FILE_LENGTH);
}

static void test_accepted(void)
{
    uint8_t expected[PANELRIGHTS_STATE_BYTES] = {0};
    struct guarded site, untouched;

    memset(&site, 0xa5, sizeof site);
    untouched = site;
    CHECK_NUMBER(panelrights_read_file(good_file, sizeof good_file, site.state, sizeof site.state),
                 PANELRIGHTS_OK);
    SET(expected, USER_AT(0), AREA_AT(0), AREA_AT(1), AREA_AT(2), OBJECT_AT(9));
    SET(expected, OWNER_AT(0, 0), OWNER_AT(0, 1), OWNER_AT(0, 2));
    SET(expected, DEFINITION_AT(9, 1));
    SET(expected, STRUCTURE_AT(0, 2), STRUCTURE_AT(1, 2));
    SET(expected, IMPORT_AT(9, 0), EXPORT_AT(9, 1));
    CHECK(memcmp(site.state, expected, sizeof expected) == 0);
    CHECK(memcmp(site.before, untouched.before, GUARD) == 0);
    CHECK(memcmp(site.behind, untouched.behind, GUARD) == 0);
    CHECK_NUMBER(panelrights_access(site.state, sizeof site.state, 0, 9), 2);
}

/* Areas 1 and 2 have a label; so has no area that is one of them in 8, 16 or 24 bits. */
static void test_labels(void)
{
    static const uint32_t above[] = {65536, 65536 + 256, 1u << 24, 1u << 31, UINT32_MAX - 255};
    uint32_t area;
    size_t i;

    for (area = 0; area < 1024; area++) {
        uint32_t label = panelrights_label(good_file, sizeof good_file, area);
        size_t offset = area == 1 ? 46 : area == 2 ? 78 : 0;
        size_t length = area == 1 ? 6 : area == 2 ? 30 : 0;

        CHECK_NUMBER(PANELRIGHTS_LABEL_OFFSET(label), offset);
        CHECK_NUMBER(PANELRIGHTS_LABEL_LENGTH(label), length);
    }
    for (i = 0; i < sizeof above / sizeof *above; i++)
        for (area = 0; area < 256; area++)
            CHECK_NUMBER(panelrights_label(good_file, sizeof good_file, above[i] + area), 0);
}

void test_files(void)
{
    test_refused();
    test_accepted();
    test_labels();
}
