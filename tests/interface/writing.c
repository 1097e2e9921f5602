/* Site files that are written: byte by byte, into buffers of each length, the order of the refusals, the
 * largest file, and what was written read again. */
#include "tests.h"

#include <stdio.h>
#include <string.h>

/* clang-format off */
static const uint8_t founding_file[30] = {
    FIELD(1), FIELD(30),
    FIELD(1), FIELD(0), FIELD(0), FIELD(0), FIELD(0), FIELD(0),
    FIELD(28), FIELD(30), FIELD(30), FIELD(30), FIELD(30), FIELD(30),
    0, 0,
};

/* The file of `make_last`. */
static const uint8_t last_file[114] = {
    FIELD(1), FIELD(114),
    FIELD(6), FIELD(1), FIELD(2), FIELD(1), FIELD(1), FIELD(2),
    FIELD(28), FIELD(40), FIELD(42), FIELD(46), FIELD(48), FIELD(50),
    0, 0, 0, 10, 0, 30, 0, 31, 3, 10, 31, 31, /* 28: owners */
    63, 31,                                   /* 40: the definition */
    30, 31, 31, 31,                           /* 42: structure */
    63, 30,                                   /* 46: the import */
    63, 31,                                   /* 48: the export */
    0, 1, ' ',                                /* 50: the label of area 0, a space */
    [82] = 31, 30,                            /* 82: the label of area 31, as long as one can be */
    '~', '}', '|', '{', 'z', 'y', 'x', 'w', 'v', 'u', 't', 's', 'r', 'q', 'p',
    'o', 'n', 'm', 'l', 'k', 'j', 'i', 'h', 'g', 'f', 'e', 'd', 'c', 'b', 'a',
};

static const uint8_t largest_header[28] = {
    FIELD(1), FIELD(PANELRIGHTS_FILE_MOST),
    FIELD(1024), FIELD(64), FIELD(1024), FIELD(1984), FIELD(2048), FIELD(32),
    FIELD(28), FIELD(2076), FIELD(2204), FIELD(4252), FIELD(8220), FIELD(12316),
};
/* clang-format on */

/* Where the label block of each begins. */
enum { FOUNDING_LABELS = 30, GOOD_LABELS = 44, LAST_LABELS = 50, LARGEST_LABELS = 12316 };

/*
 * Users 0, 3 and 31, areas 0, 10, 30 and 31. Area 30 lies in area 31, as does that itself, and imports object
 * 63, which area 31 defines and exports.
 */
static void make_last(uint8_t state[PANELRIGHTS_STATE_BYTES])
{
    memset(state, 0, PANELRIGHTS_STATE_BYTES);
    SET(state, USER_AT(0), USER_AT(3), USER_AT(31));
    SET(state, AREA_AT(0), AREA_AT(10), AREA_AT(30), AREA_AT(31), OBJECT_AT(63));
    SET(state, OWNER_AT(0, 0), OWNER_AT(0, 10), OWNER_AT(0, 30), OWNER_AT(0, 31));
    SET(state, OWNER_AT(3, 10), OWNER_AT(31, 31));
    SET(state, DEFINITION_AT(63, 31), STRUCTURE_AT(30, 31), STRUCTURE_AT(31, 31));
    SET(state, IMPORT_AT(63, 30), EXPORT_AT(63, 31));
}

/* What is handed over, with guards before, between and behind the three. */
struct desk {
    uint8_t bytes[1 << 17];
    size_t state, labels, file; /* where each begins */
    size_t end;
};

static void lay(struct desk *desk, const struct writing *writing, uint8_t filling)
{
    desk->state = GUARD;
    desk->labels = desk->state + writing->state_len + GUARD;
    desk->file = desk->labels + writing->labels_len + GUARD;
    desk->end = desk->file + writing->file_len + GUARD;
    CHECK(desk->end <= sizeof desk->bytes);
    memset(desk->bytes, filling, desk->end);
    if (writing->state_len > 0)
        memcpy(desk->bytes + desk->state, writing->state, writing->state_len);
    if (writing->labels_len > 0)
        memcpy(desk->bytes + desk->labels, writing->labels, writing->labels_len);
}

/* Says what was given, for a check that fails. */
static void describe(const struct writing *writing)
{
    size_t i;

    fprintf(stderr, "a record of %lu bytes, a buffer of %lu, labels of %lu",
            (unsigned long)writing->state_len, (unsigned long)writing->file_len,
            (unsigned long)writing->labels_len);
    for (i = 0; i < writing->labels_len && i < 3 * ENTRY; i++)
        fprintf(stderr, "%s%d", i % ENTRY == 0 ? "\n" : " ", writing->labels[i]);
    fprintf(stderr, ":\n");
}

static uint32_t write_on(struct desk *desk, const struct writing *writing)
{
    const uint8_t *state = writing->state_len == 0 ? NULL : desk->bytes + desk->state;
    const uint8_t *labels = writing->labels_len == 0 ? NULL : desk->bytes + desk->labels;
    uint8_t *file = writing->file_len == 0 ? NULL : desk->bytes + desk->file;

    return panelrights_write_file(state, writing->state_len, labels, writing->labels_len, file,
                                  writing->file_len);
}

/* Twice, with different bytes in the buffer, so that one that is not written shows. */
static void hand_over(const struct writing *writing, uint32_t expected, const uint8_t *file, size_t length)
{
    static const uint8_t fillings[] = {0xa5, 0x5a};
    static struct desk desk, given;
    size_t i;

    for (i = 0; i < sizeof fillings; i++) {
        uint32_t answer;

        lay(&desk, writing, fillings[i]);
        lay(&given, writing, fillings[i]);
        answer = write_on(&desk, writing);
        memcpy(given.bytes + given.file, file, length);
        if (answer != expected || memcmp(desk.bytes, given.bytes, desk.end) != 0)
            describe(writing);
        CHECK_NUMBER(answer, expected);
        CHECK(memcmp(desk.bytes, given.bytes, desk.end) == 0);
    }
}

void expect_written(const struct writing *writing, const uint8_t *file, size_t length)
{
    CHECK(length <= writing->file_len);
    hand_over(writing, (uint32_t)length, file, length);
}

void expect_refused(const struct writing *writing, uint8_t refusal)
{
    hand_over(writing, PANELRIGHTS_WRITE_REFUSED + refusal, founding_file, 0);
}

void put_entry(uint8_t entry[PANELRIGHTS_LABEL_ENTRY_BYTES], uint8_t area, uint8_t length)
{
    memset(entry, 0, PANELRIGHTS_LABEL_ENTRY_BYTES);
    entry[0] = area;
    entry[1] = length;
    memset(entry + 2, 'x', length);
}

/* The file's own record, made by the reader, and its own label block. */
static struct writing writing_of(const uint8_t *file, size_t length, size_t labels,
                                 uint8_t state[PANELRIGHTS_STATE_BYTES])
{
    struct writing writing = {state, PANELRIGHTS_STATE_BYTES, file + labels, length - labels, length};

    CHECK_NUMBER(panelrights_read_file(file, length, state, PANELRIGHTS_STATE_BYTES), PANELRIGHTS_OK);
    return writing;
}

/* The bytes by hand of records by hand; without labels only the length and the count of labels differ. */
static void test_by_hand(void)
{
    uint8_t state[PANELRIGHTS_STATE_BYTES], unlabelled[LAST_LABELS];
    struct writing writing = {state, sizeof state, NULL, 0, PANELRIGHTS_FILE_MOST};

    memset(state, 0, sizeof state);
    SET(state, USER_AT(0), AREA_AT(0), OWNER_AT(0, 0));
    expect_written(&writing, founding_file, sizeof founding_file);
    make_last(state);
    memcpy(unlabelled, last_file, sizeof unlabelled);
    unlabelled[2] = LAST_LABELS;
    unlabelled[14] = 0;
    expect_written(&writing, unlabelled, sizeof unlabelled);
    writing.labels = last_file + LAST_LABELS;
    writing.labels_len = sizeof last_file - LAST_LABELS;
    expect_written(&writing, last_file, sizeof last_file);
}

/* A buffer that is shorter than the file is 31; one of its length or more is written from the front. */
static void try_buffers(const uint8_t *file, size_t length, size_t labels)
{
    static const size_t lengths[] = {
        255,   256,   257,   PANELRIGHTS_FILE_MOST - 1, PANELRIGHTS_FILE_MOST, PANELRIGHTS_FILE_MOST + 1,
        65535, 65536, 65537,
    };
    uint8_t state[PANELRIGHTS_STATE_BYTES];
    struct writing writing = writing_of(file, length, labels, state);
    size_t i;

    for (writing.file_len = 0; writing.file_len < length; writing.file_len++)
        expect_refused(&writing, PANELRIGHTS_BUFFER_LENGTH);
    for (; writing.file_len <= length + ENTRY; writing.file_len++)
        expect_written(&writing, file, length);
    for (i = 0; i < sizeof lengths / sizeof *lengths; i++) {
        writing.file_len = lengths[i];
        expect_written(&writing, file, length);
    }
}

static void test_buffers(void)
{
    try_buffers(founding_file, sizeof founding_file, FOUNDING_LABELS);
    try_buffers(good_file, sizeof good_file, GOOD_LABELS);
    try_buffers(last_file, sizeof last_file, LAST_LABELS);
}

/* Which of the three are wrong, and in which of two ways each. */
struct faults {
    int state, labels, file;
};

static void try_faults(const struct faults *faults)
{
    static const uint8_t zeros[ENTRY];
    uint8_t state[PANELRIGHTS_STATE_BYTES];
    struct writing writing = writing_of(last_file, sizeof last_file, LAST_LABELS, state);

    if (faults->state == 1)
        flip(state, AREA_AT(5));
    if (faults->state == 2)
        writing.state_len--;
    if (faults->labels == 1)
        writing.labels_len--;
    if (faults->labels == 2) {
        writing.labels = zeros;
        writing.labels_len = sizeof zeros;
    }
    if (faults->file != 0)
        writing.file_len = faults->file == 1 ? 0 : sizeof founding_file - 1;
    if (faults->state != 0)
        expect_refused(&writing, PANELRIGHTS_UNSOUND_STATE);
    else if (faults->labels != 0)
        expect_refused(&writing, PANELRIGHTS_LABEL_BLOCK);
    else if (faults->file != 0)
        expect_refused(&writing, PANELRIGHTS_BUFFER_LENGTH);
    else
        expect_written(&writing, last_file, sizeof last_file);
}

/* 12, then 30, then 31: each by itself, each two and all three at once. */
static void test_order(void)
{
    struct faults faults;

    for (faults.state = 0; faults.state <= 2; faults.state++)
        for (faults.labels = 0; faults.labels <= 2; faults.labels++)
            for (faults.file = 0; faults.file <= 2; faults.file++)
                try_faults(&faults);
}

/* Records that are one bit off that of the last file, each unsound for another reason. */
static void test_unsound(void)
{
    static const size_t bits[] = {
        AREA_AT(3),            /* an area without an owner */
        USER_AT(5),            /* a user without an area */
        OBJECT_AT(1),          /* an object without a definition */
        OWNER_AT(0, 0),        /* no owner of area 0 any more */
        OWNER_AT(4, 0),        /* an owner who is not listed */
        DEFINITION_AT(63, 31), /* no definition of object 63 any more */
        DEFINITION_AT(63, 0),  /* a second one */
        DEFINITION_AT(1, 0),   /* an object that is not listed */
        STRUCTURE_AT(0, 5),    /* an area that is not listed */
        STRUCTURE_AT(30, 31),  /* area 30 imports, and lies nowhere any more */
        IMPORT_AT(63, 0),      /* lacks access */
        IMPORT_AT(63, 31),     /* by the area that defines the object */
        EXPORT_AT(63, 10),     /* lacks access */
        EXPORT_AT(0, 0),       /* an object that is not listed */
    };
    uint8_t state[PANELRIGHTS_STATE_BYTES];
    struct writing writing = writing_of(last_file, sizeof last_file, LAST_LABELS, state);
    size_t i;

    for (i = 0; i < sizeof bits / sizeof *bits; i++) {
        flip(state, bits[i]);
        expect_refused(&writing, PANELRIGHTS_UNSOUND_STATE);
        flip(state, bits[i]);
    }
    expect_written(&writing, last_file, sizeof last_file);
    memset(state, 0, sizeof state);
    expect_refused(&writing, PANELRIGHTS_UNSOUND_STATE);
    memset(state, 0xff, sizeof state);
    expect_refused(&writing, PANELRIGHTS_UNSOUND_STATE);
}

/* The record with bytes missing, or with more behind it. */
static void test_other_lengths(void)
{
    static const size_t lengths[] = {
        0,
        1,
        PANELRIGHTS_STATE_BYTES - 1,
        PANELRIGHTS_STATE_BYTES + 1,
        2 * PANELRIGHTS_STATE_BYTES,
        8320,
        65536 + PANELRIGHTS_STATE_BYTES,
    };
    static uint8_t state[65536 + PANELRIGHTS_STATE_BYTES];
    struct writing writing = writing_of(last_file, sizeof last_file, LAST_LABELS, state);
    size_t i;

    for (i = 0; i < sizeof lengths / sizeof *lengths; i++) {
        writing.state_len = lengths[i];
        expect_refused(&writing, PANELRIGHTS_UNSOUND_STATE);
    }
}

/* Every area with each first number below the limit, in order; or only those that define the object of that
 * number, or only the others. Returns where the pairs end. */
enum which { ALL, DEFINERS, OTHERS };
static uint8_t *put_pairs(uint8_t *table, uint8_t firsts, enum which which)
{
    uint8_t first, area;

    for (first = 0; first < firsts; first++)
        for (area = 0; area < PANELRIGHTS_AREAS; area++)
            if (which == ALL || (which == DEFINERS) == (area == first % 32)) {
                *table++ = first;
                *table++ = area;
            }
    return table;
}

static void make_largest(uint8_t file[PANELRIGHTS_FILE_MOST])
{
    uint8_t *end = file + sizeof largest_header, area;

    memcpy(file, largest_header, sizeof largest_header);
    end = put_pairs(end, PANELRIGHTS_USERS, ALL);
    end = put_pairs(end, PANELRIGHTS_OBJECTS, DEFINERS);
    end = put_pairs(end, PANELRIGHTS_AREAS, ALL);
    end = put_pairs(end, PANELRIGHTS_OBJECTS, OTHERS);
    end = put_pairs(end, PANELRIGHTS_OBJECTS, ALL);
    for (area = 0; area < PANELRIGHTS_AREAS; area++, end += ENTRY)
        put_entry(end, area, PANELRIGHTS_LABEL_TEXT_MOST - area % 2);
    CHECK(end == file + PANELRIGHTS_FILE_MOST);
}

/* All that a sound state can have, and a label for each area; behind them an entry too many. */
static void test_largest(void)
{
    static uint8_t file[PANELRIGHTS_FILE_MOST + ENTRY];
    struct guarded full;
    struct writing writing = {full.state, sizeof full.state, file + LARGEST_LABELS, 32 * ENTRY, 0};

    make_full(&full);
    make_largest(file);
    put_entry(file + PANELRIGHTS_FILE_MOST, 31, PANELRIGHTS_LABEL_TEXT_MOST);
    writing.file_len = PANELRIGHTS_FILE_MOST - 1;
    expect_refused(&writing, PANELRIGHTS_BUFFER_LENGTH);
    for (writing.file_len++; writing.file_len <= PANELRIGHTS_FILE_MOST + ENTRY; writing.file_len++)
        expect_written(&writing, file, PANELRIGHTS_FILE_MOST);
    writing.file_len = 0;
    expect_refused(&writing, PANELRIGHTS_BUFFER_LENGTH);
    writing.labels_len += ENTRY;
    expect_refused(&writing, PANELRIGHTS_LABEL_BLOCK);
}

/* What panelrights_labels says of a file between guards, none of whose bytes it may change. */
static uint32_t find_labels(const uint8_t *file, size_t length)
{
    static uint8_t lent[GUARD + PANELRIGHTS_FILE_MOST + GUARD], given[sizeof lent];
    uint32_t labels;

    CHECK(length <= PANELRIGHTS_FILE_MOST);
    memset(lent, 0xa5, sizeof lent);
    memcpy(lent + GUARD, file, length);
    memcpy(given, lent, sizeof lent);
    labels = panelrights_labels(lent + GUARD, length);
    CHECK(memcmp(lent, given, sizeof lent) == 0);
    return labels;
}

/* A file that is read and written again is the same. */
static void read_and_write(const uint8_t *file, size_t length, size_t expected)
{
    uint8_t state[PANELRIGHTS_STATE_BYTES];
    uint32_t labels = find_labels(file, length);
    struct writing writing = writing_of(file, length, PANELRIGHTS_LABEL_OFFSET(labels), state);

    CHECK_NUMBER(PANELRIGHTS_LABEL_OFFSET(labels), expected);
    CHECK_NUMBER(PANELRIGHTS_LABEL_LENGTH(labels), length - expected);
    expect_written(&writing, file, length);
}

/* With no label, with 1, 2 and 32 of them. */
static void test_read_and_write(void)
{
    static uint8_t largest[PANELRIGHTS_FILE_MOST];
    uint8_t one_label[GOOD_LABELS + ENTRY];

    memcpy(one_label, good_file, sizeof one_label);
    one_label[2] = sizeof one_label;
    one_label[14] = 1;
    make_largest(largest);
    read_and_write(founding_file, sizeof founding_file, FOUNDING_LABELS);
    read_and_write(one_label, sizeof one_label, GOOD_LABELS);
    read_and_write(good_file, sizeof good_file, GOOD_LABELS);
    read_and_write(last_file, sizeof last_file, LAST_LABELS);
    read_and_write(largest, sizeof largest, LARGEST_LABELS);
    largest[PANELRIGHTS_FILE_MOST - ENTRY + 1] = 0;
    CHECK_NUMBER(find_labels(largest, sizeof largest), 0);
}

/* A record and a label block that are written and read again are the same. */
static void write_and_read(const uint8_t *state, const uint8_t *labels, size_t labels_len)
{
    static uint8_t file[PANELRIGHTS_FILE_MOST];
    uint8_t again[PANELRIGHTS_STATE_BYTES];
    uint32_t length =
        panelrights_write_file(state, PANELRIGHTS_STATE_BYTES, labels, labels_len, file, sizeof file);
    uint32_t block = panelrights_labels(file, length);

    CHECK(length < PANELRIGHTS_WRITE_REFUSED);
    CHECK_NUMBER(panelrights_read_file(file, length, again, sizeof again), PANELRIGHTS_OK);
    CHECK(memcmp(again, state, sizeof again) == 0);
    CHECK_NUMBER(PANELRIGHTS_LABEL_LENGTH(block), labels_len);
    CHECK_NUMBER(PANELRIGHTS_LABEL_OFFSET(block), length - labels_len);
    CHECK(memcmp(file + PANELRIGHTS_LABEL_OFFSET(block), labels, labels_len) == 0);
}

/* After each instruction of a site's life, with no label, one and two. */
static void test_write_and_read(void)
{
    static const uint8_t lines[][4] = {
        {1, 0, 31, 0},   {3, 0, 31, 31}, {1, 31, 16, 0},  {5, 31, 16, 31}, {7, 31, 31, 63}, {9, 31, 16, 63},
        {11, 0, 31, 63}, {7, 0, 0, 0},   {5, 0, 31, 0},   {9, 0, 31, 0},   {5, 0, 0, 0},    {11, 0, 0, 0},
        {3, 31, 16, 7},  {4, 7, 16, 31}, {10, 7, 16, 63}, {6, 7, 16, 31},  {12, 0, 31, 63}, {8, 31, 31, 63},
    };
    uint8_t labels[2 * ENTRY];
    struct guarded site;
    size_t i;

    put_entry(labels, 0, 1);
    put_entry(labels + ENTRY, 31, 30);
    found(&site);
    for (i = 0; i < sizeof lines / sizeof *lines; i++) {
        step(&site, lines[i], PANELRIGHTS_OK);
        write_and_read(site.state, labels, 0);
        write_and_read(site.state, labels, ENTRY);
        write_and_read(site.state, labels + ENTRY, ENTRY);
        write_and_read(site.state, labels, 2 * ENTRY);
    }
}

void test_writing(void)
{
    test_by_hand();
    test_buffers();
    test_order();
    test_unsound();
    test_other_lengths();
    test_largest();
    test_read_and_write();
    test_write_and_read();
}
