/* Label blocks that are handed over for writing: each of their conditions, on both sides of its border. */
#include "tests.h"

#include <string.h>

enum { HEADER = 28, PAIRS = 2 * PANELRIGHTS_AREAS, ENTRIES = 32 };

/* User 0 owns all areas but one, or all where that is none of them. */
struct owned {
    uint8_t state[PANELRIGHTS_STATE_BYTES];
    uint8_t owners[PAIRS];
    size_t owners_len;
};

static void own_all_but(struct owned *owned, uint8_t unlisted)
{
    uint8_t area;

    memset(owned, 0, sizeof *owned);
    SET(owned->state, USER_AT(0));
    for (area = 0; area < PANELRIGHTS_AREAS; area++)
        if (area != unlisted) {
            SET(owned->state, AREA_AT(area), OWNER_AT(0, area));
            owned->owners[owned->owners_len + 1] = area;
            owned->owners_len += 2;
        }
}

static void put_field(uint8_t *file, size_t field, size_t number)
{
    file[2 * field] = (uint8_t)(number % 256);
    file[2 * field + 1] = (uint8_t)(number / 256);
}

/* The block is written: a header, the owners and the block itself. */
static void accept_block(const struct owned *owned, const uint8_t *block, size_t length)
{
    uint8_t file[HEADER + PAIRS + ENTRIES * ENTRY] = {0};
    const size_t labels = HEADER + owned->owners_len, end = labels + length;
    const struct writing writing = {owned->state, sizeof owned->state, block, length, end};
    size_t field;

    CHECK(end <= sizeof file);
    put_field(file, 0, 1);
    put_field(file, 1, end);
    put_field(file, 2, owned->owners_len / 2);
    put_field(file, 7, length / ENTRY);
    put_field(file, 8, HEADER);
    for (field = 9; field < 14; field++)
        put_field(file, field, labels);
    memcpy(file + HEADER, owned->owners, owned->owners_len);
    if (length > 0)
        memcpy(file + labels, block, length);
    expect_written(&writing, file, end);
}

static void refuse_block(const struct owned *owned, const uint8_t *block, size_t length)
{
    const struct writing writing = {owned->state, sizeof owned->state, block, length, PANELRIGHTS_FILE_MOST};

    expect_refused(&writing, PANELRIGHTS_LABEL_BLOCK);
}

static void try_block(const struct owned *owned, const uint8_t *block, size_t length, int fits)
{
    if (fits)
        accept_block(owned, block, length);
    else
        refuse_block(owned, block, length);
}

/* Does this value fit at this place of an entry with a text of this length, between two other areas? */
static int fits(size_t place, unsigned value, unsigned length, int area_before, int area_behind)
{
    if (place == 0)
        return (int)value > area_before && (int)value < area_behind;
    if (place == 1)
        return value == length;
    if (place < 2 + length)
        return value >= 32 && value <= 126;
    return value == 0;
}

/* The entries of areas 3, 10 and 31, with each value at each place of one of them. */
static void try_values(const struct owned *all, size_t entry, uint8_t length)
{
    static const int areas[] = {-1, 3, 10, 31, 32};
    uint8_t block[3 * ENTRY];
    unsigned value;
    size_t i, place;

    for (i = 0; i < 3; i++)
        put_entry(block + i * ENTRY, (uint8_t)areas[i + 1], i == entry ? length : 5);
    for (place = 0; place < ENTRY; place++) {
        uint8_t *byte = block + entry * ENTRY + place, given = *byte;

        for (value = 0; value < 256; value++) {
            *byte = (uint8_t)value;
            try_block(all, block, sizeof block, fits(place, value, length, areas[entry], areas[entry + 2]));
        }
        *byte = given;
    }
}

/* Texts of 1, 5, 29 and 30 bytes, in the first entry, in one between others and in the last. */
static void test_values(const struct owned *all)
{
    static const uint8_t lengths[] = {1, 5, 29, PANELRIGHTS_LABEL_TEXT_MOST};
    size_t entry, i;

    for (entry = 0; entry < 3; entry++)
        for (i = 0; i < sizeof lengths; i++)
            try_values(all, entry, lengths[i]);
}

/* Each length with a text that has it; 0 with no text, and those above 30 with a text of 30. */
static void test_lengths(const struct owned *all)
{
    uint8_t block[ENTRY];
    unsigned length;

    for (length = 0; length < 256; length++) {
        put_entry(block, 31, (uint8_t)(length > 30 ? 30 : length));
        block[1] = (uint8_t)length;
        try_block(all, block, sizeof block, length >= 1 && length <= 30);
    }
}

/* Any two areas: only where the second is above the first. What the texts are does not matter. */
static void test_areas(const struct owned *all)
{
    uint8_t block[2 * ENTRY], first, second;

    for (first = 0; first < PANELRIGHTS_AREAS; first++)
        for (second = 0; second < PANELRIGHTS_AREAS; second++) {
            put_entry(block, first, 30);
            put_entry(block + ENTRY, second, 1);
            try_block(all, block, sizeof block, first < second);
            put_entry(block, first, 1);
            put_entry(block + ENTRY, second, 30);
            try_block(all, block, sizeof block, first < second);
            put_entry(block + ENTRY, second, 1);
            try_block(all, block, sizeof block, first < second);
        }
}

/* All 32 entries, with two neighbours swapped, and with an entry twice in place of the one behind it. */
static void test_neighbours(const struct owned *all, const uint8_t entries[ENTRIES * ENTRY])
{
    uint8_t block[ENTRIES * ENTRY];
    size_t i;

    for (i = 0; i + 1 < ENTRIES; i++) {
        memcpy(block, entries, sizeof block);
        memcpy(block + i * ENTRY, entries + (i + 1) * ENTRY, ENTRY);
        memcpy(block + (i + 1) * ENTRY, entries + i * ENTRY, ENTRY);
        refuse_block(all, block, sizeof block);
        memcpy(block + i * ENTRY, entries + i * ENTRY, ENTRY);
        refuse_block(all, block, sizeof block);
        memcpy(block, entries, sizeof block);
        accept_block(all, block, sizeof block);
    }
}

/* With one area unlisted: its entry alone, all 32, and all but its own. */
static void test_unlisted(const uint8_t entries[ENTRIES * ENTRY])
{
    uint8_t others[(ENTRIES - 1) * ENTRY];
    struct owned owned;
    uint8_t area;

    for (area = 0; area < PANELRIGHTS_AREAS; area++) {
        const size_t before = (size_t)area * ENTRY;

        own_all_but(&owned, area);
        refuse_block(&owned, entries + before, ENTRY);
        refuse_block(&owned, entries, ENTRIES * ENTRY);
        memcpy(others, entries, before);
        memcpy(others + before, entries + before + ENTRY, sizeof others - before);
        accept_block(&owned, others, sizeof others);
    }
}

/*
 * Each length up to 33 entries: partial ones are refused, and so are 33, whatever the last is. Last, 2,048
 * and 2,049 entries, whose bytes would be 0 and 32 in 16 bits.
 */
static void test_counts(const struct owned *all, const uint8_t entries[ENTRIES * ENTRY])
{
    static uint8_t block[2049 * ENTRY];
    size_t length;
    unsigned area;

    for (length = 0; length < sizeof block; length += ENTRY)
        put_entry(block + length, 31, 30);
    memcpy(block, entries, ENTRIES * ENTRY);
    for (length = 0; length <= (ENTRIES + 1) * ENTRY; length++)
        try_block(all, block, length, length % ENTRY == 0 && length <= ENTRIES * ENTRY);
    refuse_block(all, block, 2048 * ENTRY);
    refuse_block(all, block, 2049 * ENTRY);
    for (area = 0; area < 256; area++) {
        put_entry(block + ENTRIES * ENTRY, (uint8_t)area, 1);
        refuse_block(all, block, (ENTRIES + 1) * ENTRY);
    }
}

void test_blocks(void)
{
    uint8_t entries[ENTRIES * ENTRY], area;
    struct owned all;

    own_all_but(&all, PANELRIGHTS_AREAS);
    for (area = 0; area < ENTRIES; area++)
        put_entry(entries + area * ENTRY, area, area % 30 + 1);
    test_values(&all);
    test_lengths(&all);
    test_areas(&all);
    test_neighbours(&all, entries);
    test_unlisted(entries);
    test_counts(&all, entries);
}
