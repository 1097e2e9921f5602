/* The macros that read a record: each number and each pair at its own bit, and nothing past the limits. */
#include "tests.h"

#include <limits.h>
#include <string.h>

/* What the macros find, each reading at its bit. */
static void read_record(const uint8_t *state, uint8_t readings[BITS])
{
    unsigned first, area;

    for (first = 0; first < PANELRIGHTS_OBJECTS; first++) {
        if (first < 32) {
            readings[USER_AT(first)] = PANELRIGHTS_HAS_USER(state, first);
            readings[AREA_AT(first)] = PANELRIGHTS_HAS_AREA(state, first);
        }
        readings[OBJECT_AT(first)] = PANELRIGHTS_HAS_OBJECT(state, first);
        for (area = 0; area < 32; area++) {
            if (first < 32) {
                readings[OWNER_AT(first, area)] = PANELRIGHTS_OWNS(state, first, area);
                readings[STRUCTURE_AT(first, area)] = PANELRIGHTS_LIES_IN(state, first, area);
            }
            readings[DEFINITION_AT(first, area)] = PANELRIGHTS_DEFINED_IN(state, first, area);
            readings[IMPORT_AT(first, area)] = PANELRIGHTS_IMPORTED_BY(state, first, area);
            readings[EXPORT_AT(first, area)] = PANELRIGHTS_EXPORTED_BY(state, first, area);
        }
    }
}

/* The numbers 0 to 299, -1 to -100, and some that are 0, 31 or -1 in 16 or 32 bits. */
enum { NUMBERS = 406 };
static long number_at(unsigned i)
{
    static const long others[] = {1l << 16, (1l << 16) + 31, 1l << 32, (1l << 32) + 31, LONG_MIN, LONG_MAX};

    return i < 300 ? (long)i : i < 400 ? 299 - (long)i : others[i - 400];
}

/* The sum of all readings of the first so many numbers. */
static unsigned long sum_readings(const uint8_t *state, unsigned numbers)
{
    unsigned long sum = 0;
    unsigned i, j;

    for (i = 0; i < numbers; i++) {
        const long first = number_at(i);

        sum += PANELRIGHTS_HAS_USER(state, first) + PANELRIGHTS_HAS_AREA(state, first);
        sum += PANELRIGHTS_HAS_OBJECT(state, first);
        for (j = 0; j < numbers; j++) {
            const long area = number_at(j);

            sum += PANELRIGHTS_OWNS(state, first, area) + PANELRIGHTS_LIES_IN(state, first, area);
            sum += PANELRIGHTS_DEFINED_IN(state, first, area);
            sum += PANELRIGHTS_IMPORTED_BY(state, first, area);
            sum += PANELRIGHTS_EXPORTED_BY(state, first, area);
        }
    }
    return sum;
}

/* From this record on: each bit, once changed, changes its own reading and no other, and none past the
 * limits. */
static void change_each_bit(uint8_t state[PANELRIGHTS_STATE_BYTES])
{
    uint8_t readings[BITS], expected[BITS];
    unsigned long sum = 0;
    size_t bit;

    for (bit = 0; bit < BITS; bit++)
        sum += expected[bit] = (uint8_t)is_set(state, bit);
    CHECK_NUMBER(sum_readings(state, NUMBERS), sum);
    for (bit = 0; bit < BITS; bit++) {
        flip(state, bit);
        expected[bit] ^= 1;
        read_record(state, readings);
        CHECK(memcmp(readings, expected, sizeof readings) == 0);
        CHECK_NUMBER(sum_readings(state, 70), expected[bit] ? sum + 1 : sum - 1);
        flip(state, bit);
        expected[bit] ^= 1;
    }
}

/*
 * An empty record, the good file's, and one of all bits, with more of them before and behind it: there
 * whatever a number past the limits reads would be 1. Last, arguments that are expressions.
 */
void test_reading(void)
{
    uint8_t memory[3 * PANELRIGHTS_STATE_BYTES] = {0}, *state = memory + PANELRIGHTS_STATE_BYTES;

    change_each_bit(state);
    CHECK_NUMBER(panelrights_read_file(good_file, sizeof good_file, state, PANELRIGHTS_STATE_BYTES), 0);
    change_each_bit(state);
    memset(memory, 0xff, sizeof memory);
    change_each_bit(state);
    memset(memory, 0, sizeof memory);
    SET(state, OWNER_AT(7, 30));
    CHECK_NUMBER(PANELRIGHTS_OWNS(memory + PANELRIGHTS_STATE_BYTES, 3 | 4, 60 >> 1), 1);
    CHECK_NUMBER(PANELRIGHTS_OWNS(state, 6, 62) + PANELRIGHTS_OWNS(state, 7, 31 | 32), 0);
}
