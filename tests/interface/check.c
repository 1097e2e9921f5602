#include "tests.h"

#include <stdio.h>
#include <stdlib.h>
#include <string.h>

static unsigned long count;

void check(int holds, const char *what, const char *file, int line)
{
    count++;
    if (!holds) {
        fprintf(stderr, "%s:%d: not so: %s\n", file, line, what);
        exit(1);
    }
}

void check_number(unsigned long got, unsigned long expected, const char *what, const char *file, int line)
{
    count++;
    if (got != expected) {
        fprintf(stderr, "%s:%d: %lu and not %lu: %s\n", file, line, got, expected, what);
        exit(1);
    }
}

unsigned long checks(void)
{
    return count;
}

unsigned draw(unsigned limit)
{
    static uint32_t seed = 1;

    seed = seed * 1664525 + 1013904223;
    return (seed >> 16) % limit;
}

void found(struct guarded *site)
{
    memset(site, 0xa5, sizeof *site);
    CHECK_NUMBER(panelrights_founding(site->state, sizeof site->state), PANELRIGHTS_OK);
}

void with_other_lengths(void (*refuse)(uint8_t *state, size_t state_len))
{
    static const size_t lengths[] = {
        0, 1, PANELRIGHTS_STATE_BYTES - 1, PANELRIGHTS_STATE_BYTES + 1, 8320, 65536 + PANELRIGHTS_STATE_BYTES,
    };
    static uint8_t memory[GUARD + 65536 + PANELRIGHTS_STATE_BYTES + GUARD], given[sizeof memory];
    uint8_t *state = memory + GUARD;
    size_t i;

    for (i = 0; i < sizeof lengths / sizeof *lengths; i++) {
        memset(memory, 0xa5, sizeof memory);
        memset(state, 0, lengths[i]);
        CHECK_NUMBER(panelrights_founding(state, PANELRIGHTS_STATE_BYTES), PANELRIGHTS_OK);
        memcpy(given, memory, sizeof memory);
        refuse(lengths[i] == 0 ? NULL : state, lengths[i]);
        CHECK(memcmp(memory, given, sizeof memory) == 0);
    }
}

/* Says which instruction it was, for a check that fails. */
static void describe(const uint8_t instruction[4])
{
    fprintf(stderr, "%d %d %d %d:\n", instruction[0], instruction[1], instruction[2], instruction[3]);
}

uint32_t reason(const struct guarded *site, const uint8_t instruction[4], uint8_t refusal)
{
    const struct guarded given = *site;
    uint32_t answer = panelrights_explain_step(site->state, sizeof site->state, instruction[0], instruction[1],
                                               instruction[2], instruction[3]);

    if (PANELRIGHTS_REASON_NUMBER(answer) != refusal)
        describe(instruction);
    CHECK_NUMBER(PANELRIGHTS_REASON_NUMBER(answer), refusal);
    if (refusal == PANELRIGHTS_WOULD_LOSE_ACCESS) {
        CHECK(PANELRIGHTS_REASON_LOST(answer) == PANELRIGHTS_LOST_IMPORT ||
              PANELRIGHTS_REASON_LOST(answer) == PANELRIGHTS_LOST_EXPORT);
    } else {
        CHECK_NUMBER(answer, refusal);
    }
    CHECK(memcmp(site, &given, sizeof given) == 0);
    return answer;
}

void step(struct guarded *site, const uint8_t instruction[4], uint8_t refusal)
{
    struct guarded given = *site;
    uint8_t answer;

    reason(site, instruction, refusal);
    answer = panelrights_step(site->state, sizeof site->state, instruction[0], instruction[1], instruction[2],
                              instruction[3]);
    if (answer != refusal)
        describe(instruction);
    CHECK_NUMBER(answer, refusal);
    if (answer != PANELRIGHTS_OK)
        CHECK(memcmp(site->state, given.state, sizeof given.state) == 0);
    CHECK(memcmp(site->before, given.before, GUARD) == 0);
    CHECK(memcmp(site->behind, given.behind, GUARD) == 0);
}

uint16_t obey_bytes(struct guarded *site, const uint8_t *bytes, size_t length, const struct caller *caller)
{
    const struct guarded given = *site;
    const uint8_t *p = caller->parameters;
    struct lent lent, untouched;
    uint16_t answer;

    CHECK(length <= sizeof lent.bytes);
    memset(&lent, 0xa5, sizeof lent);
    memcpy(lent.bytes, bytes, length);
    untouched = lent;
    answer = panelrights_recipe(site->state, sizeof site->state, lent.bytes, length, caller->activator, p[0],
                                p[1], p[2], p[3]);
    CHECK(memcmp(&lent, &untouched, sizeof lent) == 0);
    CHECK(memcmp(site->before, given.before, GUARD) == 0);
    CHECK(memcmp(site->behind, given.behind, GUARD) == 0);
    if (answer != PANELRIGHTS_OK)
        CHECK(memcmp(site->state, given.state, sizeof given.state) == 0);
    return answer;
}

void expect(struct guarded *site, const struct recipe *recipe, const struct caller *caller, unsigned place,
            unsigned number)
{
    const uint8_t *p = caller->parameters;
    uint16_t answer = obey_bytes(site, recipe->entries[0], recipe->count * PANELRIGHTS_RECIPE_ENTRY_BYTES, caller);
    size_t i;

    if (answer != place * 256 + number) {
        fprintf(stderr, "by %d with %d %d %d %d:\n", caller->activator, p[0], p[1], p[2], p[3]);
        for (i = 0; i < recipe->count; i++) {
            const uint8_t *entry = recipe->entries[i];

            fprintf(stderr, "%d %d %d %d %d\n", entry[0], entry[1], entry[2], entry[3], entry[4]);
        }
    }
    CHECK_NUMBER(answer, place * 256 + number);
}
