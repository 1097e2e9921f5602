/* Why an area can or can't see an object: chains and counts by hand, into buffers of each length; the order
 * of the refusals; and explanations beside the answers of the access question. */
#include "tests.h"

#include <stdio.h>
#include <string.h>

/* What is answered, and the bytes that are written. */
struct explanation {
    uint16_t answer;
    size_t count;
    uint8_t bytes[PANELRIGHTS_EXPLAIN_BYTES];
};

/* A record that is handed over, what is asked of it, and how long the buffer is. */
struct question {
    const uint8_t *state;
    size_t state_len;
    uint32_t area, object;
    size_t buffer_len;
};

/* Twice, with different bytes in the buffer, so that one that is not written shows; NULL for no buffer. */
static void expect_explanation(const struct question *question, const struct explanation *expected)
{
    static const uint8_t fillings[] = {0xa5, 0x5a};
    size_t i;

    for (i = 0; i < sizeof fillings; i++) {
        struct lent lent, after;
        uint16_t answer;

        CHECK(question->buffer_len <= sizeof lent.bytes);
        memset(&lent, fillings[i], sizeof lent);
        after = lent;
        memcpy(after.bytes, expected->bytes, expected->count);
        answer = panelrights_explain(question->state, question->state_len, question->area, question->object,
                                     question->buffer_len == 0 ? NULL : lent.bytes, question->buffer_len);
        if (answer != expected->answer || memcmp(&lent, &after, sizeof lent) != 0)
            fprintf(stderr, "area %lu, object %lu, a buffer of %lu bytes:\n", (unsigned long)question->area,
                    (unsigned long)question->object, (unsigned long)question->buffer_len);
        CHECK_NUMBER(answer, expected->answer);
        CHECK(memcmp(&lent, &after, sizeof lent) == 0);
    }
}

static const struct explanation short_buffer = {256 + 31, 0, {0}};

/* In buffers of each length up to 64: under 32 bytes it is 31. No byte of the record is changed. */
static void explain_in_each(const struct guarded *site, uint32_t area, uint32_t object,
                            const struct explanation *expected)
{
    struct question question = {site->state, sizeof site->state, area, object, 0};
    const struct guarded given = *site;

    for (; question.buffer_len < 32; question.buffer_len++)
        expect_explanation(&question, &short_buffer);
    for (; question.buffer_len <= 64; question.buffer_len++)
        expect_explanation(&question, expected);
    CHECK(memcmp(site, &given, sizeof given) == 0);
}

static void expect_chain(const struct guarded *site, uint32_t object, const uint8_t *chain, size_t count)
{
    struct explanation expected = {(uint16_t)count, count, {0}};

    memcpy(expected.bytes, chain, count);
    explain_in_each(site, chain[count - 1], object, &expected);
}

/* The chain of the object to the last of the areas: EXPECT_CHAIN(&site, 9, 1, 2, 0). */
#define EXPECT_CHAIN(site, object, ...)                                                                      \
    expect_chain((site), (object), (const uint8_t[]){__VA_ARGS__}, sizeof((const uint8_t[]){__VA_ARGS__}))

/* Without access: the counts of the areas from 0 on, and 255 for those behind them. */
static void expect_counts(const struct guarded *site, uint32_t area, uint32_t object, const uint8_t *counts,
                          size_t count)
{
    struct explanation expected = {512 + 32, 32, {0}};

    memset(expected.bytes, 255, 32);
    memcpy(expected.bytes, counts, count);
    explain_in_each(site, area, object, &expected);
}

/* EXPECT_COUNTS(&site, 0, 9, 255, 0): but for area 1, no area has access. */
#define EXPECT_COUNTS(site, area, object, ...)                                                               \
    expect_counts((site), (area), (object), (const uint8_t[]){__VA_ARGS__},                                  \
                  sizeof((const uint8_t[]){__VA_ARGS__}))

/* The session after lines 5, 8 and 12. After line 8 area 2 is on the chain, and has no entry of its own. */
static void test_session(void)
{
    struct guarded site;

    run_session(&site, 5);
    EXPECT_CHAIN(&site, 9, 1);
    EXPECT_COUNTS(&site, 0, 9, 255, 0);
    EXPECT_COUNTS(&site, 2, 9, 255, 0);
    run_session(&site, 8);
    EXPECT_CHAIN(&site, 9, 1, 2, 0);
    EXPECT_CHAIN(&site, 9, 1);
    EXPECT_CHAIN(&site, 9, 1, 2);
    run_session(&site, 12);
    EXPECT_COUNTS(&site, 0, 9, 255, 0, 1);
    EXPECT_CHAIN(&site, 9, 1);
    EXPECT_CHAIN(&site, 9, 1, 2);
}

/*
 * From area 10 to area 20 over 3 and 8, or over 5 and 2: from the front 3 is the lower, and from the back 2.
 * Area 1 is lower still and leads nowhere; so is area 0, by which it is a step more. Then the second places
 * are equal and the third ones are not; and last there is a chain of two steps, whose numbers are higher.
 */
static void test_equal_chains(void)
{
    struct guarded site;

    found(&site);
    put_object(&site, 9, 10);
    LEND(&site, 9, OUTWARD, 10, 3, 8, 20);
    EXPECT_CHAIN(&site, 9, 10, 3, 8, 20);
    LEND(&site, 9, INWARD, 10, 5, 2, 20);
    EXPECT_CHAIN(&site, 9, 10, 3, 8, 20);
    EXPECT_CHAIN(&site, 9, 10, 5, 2);
    LEND(&site, 9, INWARD, 10, 1);
    EXPECT_CHAIN(&site, 9, 10, 3, 8, 20);
    LEND(&site, 9, OUTWARD, 10, 0, 4, 6, 20);
    EXPECT_CHAIN(&site, 9, 10, 3, 8, 20);
    EXPECT_CHAIN(&site, 9, 10, 0, 4, 6);
    LEND(&site, 9, INWARD, 3, 9, 20);
    EXPECT_CHAIN(&site, 9, 10, 3, 8, 20);
    LEND(&site, 9, INWARD, 3, 7, 20);
    EXPECT_CHAIN(&site, 9, 10, 3, 7, 20);
    LEND(&site, 9, INWARD, 10, 31, 20);
    EXPECT_CHAIN(&site, 9, 10, 31, 20);
}

/* Two ways of 8 steps, which part at area 9: from the front the one over 20 is the lower, and from the back
 * the one over 4. Area 19 is lower than 20, and leads only to 18. */
static void test_parting_late(void)
{
    struct guarded site;

    found(&site);
    put_object(&site, 0, 31);
    LEND(&site, 0, BY_TURNS, 31, 2, 17, 0, 9, 20, 14, 25, 5);
    LEND(&site, 0, INWARD, 9, 30, 3, 4, 5);
    LEND(&site, 0, INWARD, 9, 19, 18);
    EXPECT_CHAIN(&site, 0, 31, 2, 17, 0, 9, 20, 14, 25, 5);
    EXPECT_CHAIN(&site, 0, 31, 2, 17, 0, 9, 30, 3, 4);
}

/* The object goes along ten areas: each of the first nine has the chain up to it, the last is at 9 steps. */
static void explain_row(const struct guarded *site, uint32_t object, const uint8_t row[10])
{
    uint8_t counts[32];
    size_t i;

    memset(counts, 255, sizeof counts);
    for (i = 0; i < 9; i++) {
        expect_chain(site, object, row, i + 1);
        counts[row[i]] = (uint8_t)i;
    }
    expect_counts(site, row[9], object, counts, sizeof counts);
}

static void test_rows(void)
{
    static const uint8_t mixed[10] = {31, 2, 17, 0, 9, 30, 1, 16, 8, 5};
    struct guarded site;

    make_row(&site);
    EXPECT_CHAIN(&site, 9, 0, 1, 2, 3, 4, 5, 6, 7, 8);
    EXPECT_COUNTS(&site, 9, 9, 0, 1, 2, 3, 4, 5, 6, 7, 8, 255);
    found(&site);
    put_object(&site, 63, mixed[0]);
    lend_along(&site, 63, BY_TURNS, mixed, sizeof mixed);
    explain_row(&site, 63, mixed);
    found(&site);
    put_object(&site, 0, mixed[0]);
    lend_along(&site, 0, OUTWARD, mixed, sizeof mixed);
    explain_row(&site, 0, mixed);
}

/* Areas that lie in themselves, and a ring of three: no area comes twice on a chain. */
static void test_rings(void)
{
    struct guarded site;

    found(&site);
    put_object(&site, 9, 4);
    LEND(&site, 9, OUTWARD, 4, 4);
    EXPECT_CHAIN(&site, 9, 4);
    LEND(&site, 9, INWARD, 4, 6, 6);
    EXPECT_CHAIN(&site, 9, 4, 6);
    LEND(&site, 9, OUTWARD, 6, 6, 7);
    LEND(&site, 9, OUTWARD, 7, 4);
    EXPECT_CHAIN(&site, 9, 4);
    EXPECT_CHAIN(&site, 9, 4, 6);
    EXPECT_CHAIN(&site, 9, 4, 6, 7);
}

/*
 * All 32 areas are listed. From area 16 the object goes two ways, over areas 0 and 31, for 8 steps. Areas 8
 * and 11 would be at 9, and no step leads to areas 9, 10 and 17 to 26.
 */
static void test_counts(void)
{
    static const uint8_t counts[32] = {
        1, 2,   3,   4,   5,   6,   7,   8,   255, 255, 255, 255, 8, 6, 4, 2,
        0, 255, 255, 255, 255, 255, 255, 255, 255, 255, 255, 8,   7, 5, 3, 1,
    };
    struct guarded site;
    uint8_t area;

    found(&site);
    put_object(&site, 33, 16);
    for (area = 0; area < PANELRIGHTS_AREAS; area++)
        SET(site.state, AREA_AT(area), OWNER_AT(0, area));
    LEND(&site, 33, BY_TURNS, 16, 0, 15, 30, 14, 29, 13, 28, 12, 11);
    LEND(&site, 33, OUTWARD, 16, 31, 1, 2, 3, 4, 5, 6, 7, 8);
    LEND(&site, 33, INWARD, 6, 27);
    for (area = 8; area < 12; area++)
        expect_counts(&site, area, 33, counts, sizeof counts);
    for (area = 17; area < 27; area++)
        expect_counts(&site, area, 33, counts, sizeof counts);
    EXPECT_CHAIN(&site, 33, 16, 31, 1, 2, 3, 4, 5, 6, 27);
    EXPECT_CHAIN(&site, 33, 16, 0, 15, 30, 14, 29, 13, 28, 12);
}

/* Each area with each object of the full state: it defines it, or is a step from the area that does. */
static void test_full(void)
{
    struct guarded full;
    uint8_t area, object;

    make_full(&full);
    for (object = 0; object < PANELRIGHTS_OBJECTS; object++)
        for (area = 0; area < PANELRIGHTS_AREAS; area++) {
            const uint8_t definer = object % 32;
            const struct question question = {full.state, sizeof full.state, area, object, 32};
            const struct explanation own = {1, 1, {area}}, borrowed = {2, 2, {definer, area}};

            expect_explanation(&question, area == definer ? &own : &borrowed);
        }
}

/* A number, and what it is refused as: 0 if it is not. */
struct number {
    uint32_t number;
    uint8_t refusal;
};

/* After line 8 of the session: areas, objects, and lengths of buffers. */
enum { NUMBERS = 6 };
static const struct number areas[NUMBERS] = {{0, 0}, {3, 4}, {31, 4}, {32, 2}, {256, 2}, {UINT32_MAX, 2}};
static const struct number objects[NUMBERS] = {{9, 0},  {8, 4},       {63, 4},
                                               {64, 2}, {256 + 9, 2}, {UINT32_MAX, 2}};
static const struct number lengths[NUMBERS] = {{32, 0}, {33, 0}, {100, 0}, {31, 31}, {1, 31}, {0, 31}};

/* 31, then 12, then 2, then 4. */
static uint8_t first_refusal(uint8_t length, uint8_t record, uint8_t area, uint8_t object)
{
    if (length != 0 || record != 0)
        return length != 0 ? length : record;
    return area == 2 || object == 2 ? 2 : area | object;
}

/* Each area with each object and each length, of a record that is sound, or refused as 12. */
static void try_numbers(const uint8_t *state, size_t state_len, uint8_t refused)
{
    static const struct explanation chain = {3, 3, {1, 2, 0}};
    size_t i, j, k;

    for (i = 0; i < NUMBERS; i++)
        for (j = 0; j < NUMBERS; j++)
            for (k = 0; k < NUMBERS; k++) {
                const struct question question = {state, state_len, areas[i].number, objects[j].number,
                                                  lengths[k].number};
                const uint8_t refusal =
                    first_refusal(lengths[k].refusal, refused, areas[i].refusal, objects[j].refusal);
                const struct explanation none = {256 + refusal, 0, {0}};

                expect_explanation(&question, refusal == 0 ? &chain : &none);
            }
}

/* The record; with a byte missing, with one more, and no byte at all; and with area 3 listed, no owner. */
static void test_order(void)
{
    struct guarded site, given;

    run_session(&site, 8);
    given = site;
    try_numbers(site.state, sizeof site.state, 0);
    try_numbers(site.state, sizeof site.state - 1, PANELRIGHTS_UNSOUND_STATE);
    try_numbers(site.state, sizeof site.state + 1, PANELRIGHTS_UNSOUND_STATE);
    try_numbers(NULL, 0, PANELRIGHTS_UNSOUND_STATE);
    CHECK(memcmp(&site, &given, sizeof site) == 0);
    SET(site.state, AREA_AT(3));
    try_numbers(site.state, sizeof site.state, PANELRIGHTS_UNSOUND_STATE);
}

/* How many chains there were by their bytes, how often a step of one could go to more than one area, how many
 * counts, and refusals by their number. */
static struct {
    unsigned chains[PANELRIGHTS_MOST_STEPS + 2];
    unsigned choices, counts;
    unsigned refused[32];
} seen;

/* The chain of so many steps: at each the lowest of the areas that lead on in as many as are left. */
static struct explanation first_chain(const uint8_t *state, uint32_t area, uint32_t object, unsigned steps)
{
    struct explanation chain = {(uint16_t)(steps + 1), 1, {0}};
    uint32_t leading[PANELRIGHTS_MOST_STEPS + 1];

    find_leading(state, area, object, leading);
    while (!PANELRIGHTS_DEFINED_IN(state, object, chain.bytes[0]))
        CHECK(++chain.bytes[0] < PANELRIGHTS_AREAS);
    while (steps-- > 0) {
        unsigned ways = 0, to;

        for (to = PANELRIGHTS_AREAS; to-- > 0;)
            if (leading[steps] >> to & 1 && moves(state, object, chain.bytes[chain.count - 1], to)) {
                chain.bytes[chain.count] = (uint8_t)to;
                ways++;
            }
        CHECK(ways > 0);
        seen.choices += ways > 1;
        chain.count++;
    }
    seen.chains[chain.count]++;
    return chain;
}

/* What the access question answers for each area; an area that is not listed lacks access. */
static struct explanation least_counts(const uint8_t *state, uint32_t object)
{
    struct explanation counts = {512 + 32, 32, {0}};
    uint32_t area;

    for (area = 0; area < PANELRIGHTS_AREAS; area++) {
        const uint16_t answer = panelrights_access(state, PANELRIGHTS_STATE_BYTES, area, object);

        counts.bytes[area] = (uint8_t)(answer <= PANELRIGHTS_MOST_STEPS ? answer : 255);
    }
    seen.counts++;
    return counts;
}

uint16_t ask(const struct guarded *site, uint32_t area, uint32_t object)
{
    const struct question question = {site->state, sizeof site->state, area, object, 40};
    const struct guarded given = *site;
    const uint16_t answer = panelrights_access(site->state, sizeof site->state, area, object);
    struct explanation expected = {answer, 0, {0}};

    if (answer <= PANELRIGHTS_MOST_STEPS)
        expected = first_chain(site->state, area, object, answer);
    else if (answer == PANELRIGHTS_NO_ACCESS)
        expected = least_counts(site->state, object);
    else
        seen.refused[answer % 32]++;
    expect_explanation(&question, &expected);
    CHECK(memcmp(site, &given, sizeof given) == 0);
    return answer;
}

/* Every area with every object, and the first numbers above them. */
static void ask_all(const struct guarded *site)
{
    uint32_t area, object;

    for (area = 0; area <= PANELRIGHTS_AREAS; area++)
        for (object = 0; object <= PANELRIGHTS_OBJECTS; object++)
            ask(site, area, object);
}

/* A drawn site, and the same with one bit changed. */
static void ask_drawn(int for_others)
{
    struct guarded site;

    draw_site(&site, for_others);
    CHECK(ask(&site, 0, 9) < PANELRIGHTS_ACCESS_REFUSED);
    ask_all(&site);
    flip(site.state, draw(BITS));
    ask_all(&site);
}

/* Enough of each kind was seen. */
static void check_seen(void)
{
    unsigned count;

    for (count = 1; count <= PANELRIGHTS_MOST_STEPS + 1; count++)
        CHECK(seen.chains[count] >= 100);
    CHECK(seen.choices >= 1000);
    CHECK(seen.counts >= 500);
    CHECK(seen.refused[PANELRIGHTS_OUT_OF_RANGE] >= 1000);
    CHECK(seen.refused[PANELRIGHTS_NOT_LISTED] >= 1000);
    CHECK(seen.refused[PANELRIGHTS_UNSOUND_STATE] >= 1000);
}

static void test_many(void)
{
    struct guarded site;
    size_t i;

    for (i = 0; i <= SESSION; i++) {
        run_session(&site, i);
        ask_all(&site);
    }
    make_row(&site);
    ask_all(&site);
    make_star(&site);
    ask_all(&site);
    make_full(&site);
    ask_all(&site);
    for (i = 0; i < 120; i++)
        ask_drawn(i % 3 == 0);
    check_seen();
}

void test_explaining(void)
{
    test_session();
    test_equal_chains();
    test_parting_late();
    test_rows();
    test_rings();
    test_counts();
    test_full();
    test_order();
    test_many();
}
