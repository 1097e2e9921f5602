/* Why an instruction is refused: the pair that is named with 11, by hand and beside a search for it, and the
 * four parts of an answer. That no pair is named with another number is checked wherever a step is. */
#include "tests.h"

#include <string.h>

/* A removal that is refused as 11, and the pair that is named. */
struct loss {
    uint8_t instruction[4];
    uint8_t kind, object, area;
};

static void expect_losses(struct guarded *site, const struct loss *losses, size_t count)
{
    size_t i;

    for (i = 0; i < count; i++) {
        const struct loss *loss = &losses[i];

        CHECK_NUMBER(reason(site, loss->instruction, 11),
                     11 + 256u * loss->kind + 65536u * loss->object + 16777216u * loss->area);
        step(site, loss->instruction, 11);
    }
}

enum { IMPORT = PANELRIGHTS_LOST_IMPORT, EXPORT = PANELRIGHTS_LOST_EXPORT };

/* EXPECT_LOST(&site, {{12, 0, 1, 9}, IMPORT, 9, 0}): it would lose the import of object 9 by area 0. */
#define EXPECT_LOST(site, ...)                                                                               \
    expect_losses((site), (const struct loss[]){__VA_ARGS__},                                                \
                  sizeof((const struct loss[]){__VA_ARGS__}) / sizeof(struct loss))

static void accept(struct guarded site, uint8_t code, uint8_t a, uint8_t b)
{
    const uint8_t removal[4] = {code, 0, a, b};

    step(&site, removal, PANELRIGHTS_OK);
}

/* Line 9 of the session. Without the export area 2 would lack access too, and has no entry. */
static void test_session(void)
{
    struct guarded site;

    run_session(&site, 8);
    EXPECT_LOST(&site, {{12, 0, 1, 9}, IMPORT, 9, 0}, {{6, 0, 1, 2}, IMPORT, 9, 0},
                {{6, 0, 0, 2}, IMPORT, 9, 0}, {{8, 0, 1, 9}, IMPORT, 9, 0});
    accept(site, PANELRIGHTS_REMOVE_IMPORT, 0, 9);
}

/*
 * Areas 0 to 8 export. Of the pairs that are left, that of the area next to the cut is the first; with an
 * import by area 8 it is that one, up to 8 steps off; with one by area 3, too, that where it is lost.
 */
static void test_row(void)
{
    struct guarded site, importing, twice;
    uint8_t area;

    make_row(&site);
    importing = site;
    SET(importing.state, IMPORT_AT(9, 8));
    twice = importing;
    SET(twice.state, IMPORT_AT(9, 3));
    for (area = 0; area < 8; area++) {
        const uint8_t next = area + 1, nearer = area < 3 ? 3 : 8;

        EXPECT_LOST(&site, {{12, 0, area, 9}, EXPORT, 9, next}, {{6, 0, area, next}, EXPORT, 9, next});
        EXPECT_LOST(&importing, {{12, 0, area, 9}, IMPORT, 9, 8}, {{6, 0, area, next}, IMPORT, 9, 8});
        EXPECT_LOST(&twice, {{12, 0, area, 9}, IMPORT, 9, nearer}, {{6, 0, area, next}, IMPORT, 9, nearer});
    }
    EXPECT_LOST(&site, {{8, 0, 0, 9}, EXPORT, 9, 0});
    EXPECT_LOST(&importing, {{8, 0, 0, 9}, IMPORT, 9, 8});
    EXPECT_LOST(&twice, {{8, 0, 0, 9}, IMPORT, 9, 3});
    accept(site, PANELRIGHTS_REMOVE_EXPORT, 8, 9);
    accept(site, PANELRIGHTS_REMOVE_STRUCTURE, 8, 9);
    accept(importing, PANELRIGHTS_REMOVE_IMPORT, 8, 9);
    accept(twice, PANELRIGHTS_REMOVE_IMPORT, 3, 9);
}

/* Each area imports from the one before it. Not the nearest one is the first to be named, but the lowest. */
static void test_inward(void)
{
    struct guarded site;

    found(&site);
    put_object(&site, 63, 31);
    LEND(&site, 63, INWARD, 31, 2, 17, 0, 9, 30, 1, 16, 8);
    EXPECT_LOST(&site, {{10, 0, 2, 63}, IMPORT, 63, 0}, {{10, 0, 17, 63}, IMPORT, 63, 0},
                {{10, 0, 0, 63}, IMPORT, 63, 1}, {{10, 0, 9, 63}, IMPORT, 63, 1},
                {{10, 0, 30, 63}, IMPORT, 63, 1}, {{10, 0, 1, 63}, IMPORT, 63, 8},
                {{10, 0, 16, 63}, IMPORT, 63, 8});
    EXPECT_LOST(&site, {{6, 0, 2, 31}, IMPORT, 63, 0}, {{6, 0, 0, 17}, IMPORT, 63, 0},
                {{6, 0, 9, 0}, IMPORT, 63, 1}, {{6, 0, 16, 1}, IMPORT, 63, 8}, {{6, 0, 8, 16}, IMPORT, 63, 8},
                {{8, 0, 31, 63}, IMPORT, 63, 0});
    accept(site, PANELRIGHTS_REMOVE_IMPORT, 8, 63);
}

/* Areas 31, 17 and 9 export, areas 17 and 9 import: an export is named where it alone is lost. */
static void test_by_turns(void)
{
    struct guarded site;

    found(&site);
    put_object(&site, 5, 31);
    LEND(&site, 5, BY_TURNS, 31, 2, 17, 0, 9, 30);
    EXPECT_LOST(&site, {{12, 0, 31, 5}, IMPORT, 5, 9}, {{10, 0, 17, 5}, IMPORT, 5, 9},
                {{12, 0, 17, 5}, IMPORT, 5, 9}, {{6, 0, 9, 0}, IMPORT, 5, 9}, {{8, 0, 31, 5}, IMPORT, 5, 9},
                {{10, 0, 9, 5}, EXPORT, 5, 9});
    accept(site, PANELRIGHTS_REMOVE_EXPORT, 9, 5);
}

/* Area 0 lies in area 1 and lends it two objects: the import of object 50 is named before the export of 3. */
static void test_imports_first(void)
{
    struct guarded site;

    found(&site);
    put_object(&site, 3, 0);
    put_object(&site, 50, 0);
    LEND(&site, 3, OUTWARD, 0, 1);
    LEND(&site, 50, OUTWARD, 0, 1);
    SET(site.state, EXPORT_AT(3, 1), EXPORT_AT(50, 1), IMPORT_AT(50, 1));
    EXPECT_LOST(&site, {{6, 0, 0, 1}, IMPORT, 50, 1}, {{12, 0, 0, 50}, IMPORT, 50, 1},
                {{12, 0, 0, 3}, EXPORT, 3, 1}, {{8, 0, 0, 3}, EXPORT, 3, 0}, {{8, 0, 0, 50}, IMPORT, 50, 1});
    flip(site.state, IMPORT_AT(50, 1));
    EXPECT_LOST(&site, {{6, 0, 0, 1}, EXPORT, 3, 1}, {{12, 0, 0, 50}, EXPORT, 50, 1},
                {{8, 0, 0, 50}, EXPORT, 50, 0});
    flip(site.state, EXPORT_AT(3, 1));
    EXPECT_LOST(&site, {{6, 0, 0, 1}, EXPORT, 50, 1});
}

/* Objects 5 and 6 go from area 0 to area 31, and from there to areas 30 and 1: object 5 is the first, though
 * area 1 is the lowest; and of its areas the lowest. */
static void test_object_first(void)
{
    struct guarded imports, exports;

    found(&imports);
    put_object(&imports, 5, 0);
    put_object(&imports, 6, 0);
    LEND(&imports, 5, OUTWARD, 0, 31);
    LEND(&imports, 6, OUTWARD, 0, 31);
    exports = imports;
    LEND(&imports, 5, INWARD, 31, 30);
    LEND(&imports, 6, INWARD, 31, 1);
    EXPECT_LOST(&imports, {{6, 0, 0, 31}, IMPORT, 5, 30}, {{12, 0, 0, 5}, IMPORT, 5, 30},
                {{12, 0, 0, 6}, IMPORT, 6, 1}, {{6, 0, 1, 31}, IMPORT, 6, 1});
    LEND(&imports, 5, INWARD, 31, 4);
    EXPECT_LOST(&imports, {{6, 0, 0, 31}, IMPORT, 5, 4});
    LEND(&exports, 5, OUTWARD, 31, 30);
    LEND(&exports, 6, OUTWARD, 31, 1);
    SET(exports.state, EXPORT_AT(5, 30), EXPORT_AT(6, 1));
    EXPECT_LOST(&exports, {{6, 0, 0, 31}, EXPORT, 5, 30}, {{12, 0, 0, 5}, EXPORT, 5, 30},
                {{12, 0, 0, 6}, EXPORT, 6, 1}, {{6, 0, 31, 30}, EXPORT, 5, 30},
                {{12, 0, 31, 6}, EXPORT, 6, 1});
}

/*
 * The row, with a detour from area 0 to area 1: without the pair of these two every area up to 7 is still
 * within 8 steps, and what is lost is at its other end. A longer detour leaves those up to 6.
 */
static void test_detour(void)
{
    struct guarded site, longer;

    make_row(&site);
    longer = site;
    LEND(&site, 9, OUTWARD, 0, 20, 1);
    LEND(&longer, 9, OUTWARD, 0, 20, 21, 1);
    EXPECT_LOST(&site, {{6, 0, 0, 1}, EXPORT, 9, 8});
    EXPECT_LOST(&longer, {{6, 0, 0, 1}, EXPORT, 9, 7});
    SET(site.state, IMPORT_AT(9, 8));
    SET(longer.state, IMPORT_AT(9, 8));
    EXPECT_LOST(&site, {{6, 0, 0, 1}, IMPORT, 9, 8}, {{6, 0, 0, 20}, EXPORT, 9, 20});
    EXPECT_LOST(&longer, {{6, 0, 0, 1}, IMPORT, 9, 8}, {{12, 0, 20, 9}, EXPORT, 9, 21});
}

/* The lowest pair and the highest, and every object of the full state, which all areas but one import. */
static void test_numbers(void)
{
    struct guarded site;
    uint8_t object;

    found(&site);
    put_object(&site, 0, 1);
    put_object(&site, 63, 30);
    LEND(&site, 0, INWARD, 1, 0);
    LEND(&site, 63, INWARD, 30, 31);
    EXPECT_LOST(&site, {{6, 0, 0, 1}, IMPORT, 0, 0}, {{6, 0, 31, 30}, IMPORT, 63, 31});
    CHECK_NUMBER(panelrights_explain_step(site.state, sizeof site.state, 6, 0, 0, 1), 0x0000010b);
    CHECK_NUMBER(panelrights_explain_step(site.state, sizeof site.state, 6, 0, 31, 30), 0x1f3f010b);
    LEND(&site, 63, OUTWARD, 30, 31);
    SET(site.state, EXPORT_AT(63, 31));
    flip(site.state, IMPORT_AT(63, 31));
    EXPECT_LOST(&site, {{6, 0, 30, 31}, EXPORT, 63, 31}, {{12, 0, 30, 63}, EXPORT, 63, 31});
    CHECK_NUMBER(panelrights_explain_step(site.state, sizeof site.state, 12, 0, 30, 63), 0x1f3f020b);
    make_full(&site);
    for (object = 0; object < PANELRIGHTS_OBJECTS; object++)
        EXPECT_LOST(&site, {{8, 0, object % 32, object}, IMPORT, object, object % 32 == 0});
}

static void test_parts(void)
{
    uint32_t value;

    for (value = 0; value < 256; value++) {
        const uint32_t lost = 255 - value, object = value ^ 0x55, area = value ^ 0xaa;
        const uint32_t answer = value + 256 * lost + 65536 * object + 16777216 * area;

        CHECK_NUMBER(PANELRIGHTS_REASON_NUMBER(answer), value);
        CHECK_NUMBER(PANELRIGHTS_REASON_LOST(answer), lost);
        CHECK_NUMBER(PANELRIGHTS_REASON_OBJECT(answer), object);
        CHECK_NUMBER(PANELRIGHTS_REASON_AREA(answer), area);
    }
    CHECK_NUMBER(PANELRIGHTS_REASON_NUMBER(31u << 24 | 11), 11);
    CHECK_NUMBER(PANELRIGHTS_REASON_LOST(31u << 24 | 2 << 8), 2);
    CHECK_NUMBER(PANELRIGHTS_REASON_OBJECT(31u << 24 | 63 << 16), 63);
    CHECK_NUMBER(PANELRIGHTS_REASON_AREA(31u << 24 | 63 << 16), 31);
}

/* How many answers there were by their number; and pairs that were named, by the code and the kind. */
static struct {
    unsigned numbers[32];
    unsigned pairs[13][3];
} seen;

/* The bits that a removal would change. */
static void remove_pair(uint8_t *state, const uint8_t instruction[4])
{
    const uint8_t a = instruction[2], b = instruction[3];

    switch (instruction[0]) {
    case PANELRIGHTS_REMOVE_STRUCTURE:
        flip(state, STRUCTURE_AT(a, b));
        break;
    case PANELRIGHTS_REMOVE_DEFINITION:
        flip(state, DEFINITION_AT(b, a));
        flip(state, OBJECT_AT(b));
        break;
    case PANELRIGHTS_REMOVE_IMPORT:
        flip(state, IMPORT_AT(b, a));
        break;
    case PANELRIGHTS_REMOVE_EXPORT:
        flip(state, EXPORT_AT(b, a));
        break;
    }
}

static int has_access(const uint8_t *state, uint32_t area, uint32_t object)
{
    uint32_t leading[PANELRIGHTS_MOST_STEPS + 1];
    unsigned steps, definer;

    find_leading(state, area, object, leading);
    for (steps = 0; steps <= PANELRIGHTS_MOST_STEPS; steps++)
        for (definer = 0; definer < PANELRIGHTS_AREAS; definer++)
            if (leading[steps] >> definer & 1 && PANELRIGHTS_DEFINED_IN(state, object, definer))
                return 1;
    return 0;
}

/* The first pair whose area lacks access, and its kind, as in an answer. */
static uint32_t first_lost(const uint8_t *state)
{
    uint32_t kind, object, area;

    for (kind = IMPORT; kind <= EXPORT; kind++)
        for (object = 0; object < PANELRIGHTS_OBJECTS; object++)
            for (area = 0; area < PANELRIGHTS_AREAS; area++)
                if ((kind == IMPORT ? PANELRIGHTS_IMPORTED_BY(state, object, area)
                                    : PANELRIGHTS_EXPORTED_BY(state, object, area)) &&
                    !has_access(state, area, object))
                    return 256 * kind + 65536 * object + 16777216 * area;
    return 0;
}

/* The number is that of a step on a copy, and the pair is the first. */
static void compare(const struct guarded *site, const uint8_t instruction[4])
{
    struct guarded copy = *site;
    const uint8_t refusal = panelrights_step(copy.state, sizeof copy.state, instruction[0], instruction[1],
                                             instruction[2], instruction[3]);
    const uint32_t answer = reason(site, instruction, refusal);

    seen.numbers[refusal]++;
    if (refusal == PANELRIGHTS_WOULD_LOSE_ACCESS) {
        remove_pair(copy.state, instruction);
        CHECK_NUMBER(answer, 11 + first_lost(copy.state));
        seen.pairs[instruction[0]][PANELRIGHTS_REASON_LOST(answer)]++;
    }
}

/* A pair of this relation that is there, in the places that an instruction has for it. Mostly it is found. */
static void draw_removal(const struct guarded *site, uint8_t code, uint8_t instruction[4])
{
    static const uint8_t objects[] = {0, 9, 63};
    unsigned tries = 1000;
    uint8_t a, b;

    do {
        a = (uint8_t)draw(PANELRIGHTS_AREAS);
        b = code == PANELRIGHTS_REMOVE_STRUCTURE ? (uint8_t)draw(PANELRIGHTS_AREAS) : objects[draw(3)];
    } while (!(code == PANELRIGHTS_REMOVE_STRUCTURE    ? PANELRIGHTS_LIES_IN(site->state, a, b)
               : code == PANELRIGHTS_REMOVE_DEFINITION ? PANELRIGHTS_DEFINED_IN(site->state, b, a)
               : code == PANELRIGHTS_REMOVE_IMPORT     ? PANELRIGHTS_IMPORTED_BY(site->state, b, a)
                                                       : PANELRIGHTS_EXPORTED_BY(site->state, b, a)) &&
             --tries > 0);
    instruction[0] = code;
    instruction[1] = 0;
    instruction[2] = a;
    instruction[3] = b;
}

static void draw_instruction(uint8_t instruction[4])
{
    static const uint8_t others[] = {0, 1, 9, 31, 32, 63, 64};
    size_t i;

    for (i = 0; i < 4; i++)
        instruction[i] = draw(10) == 0  ? (uint8_t)draw(256)
                         : i == 0       ? (uint8_t)(1 + draw(12))
                         : draw(2) == 0 ? 0
                                        : others[draw(sizeof others)];
}

/* Removals of what is there, each also as an import of its numbers, and any instructions. */
static void compare_many(const struct guarded *site)
{
    uint8_t instruction[4], code;
    size_t i;

    for (i = 0; i < 5; i++)
        for (code = PANELRIGHTS_REMOVE_STRUCTURE; code <= PANELRIGHTS_REMOVE_EXPORT; code += 2) {
            draw_removal(site, code, instruction);
            compare(site, instruction);
            instruction[0] = PANELRIGHTS_ADD_IMPORT;
            compare(site, instruction);
        }
    for (i = 0; i < 50; i++) {
        draw_instruction(instruction);
        compare(site, instruction);
    }
}

/* In drawn sites, and in such with one bit changed. Each number and each kind of pair was seen. */
static void test_drawn(void)
{
    static const uint8_t numbers[] = {0, 1, 2, 3, 4, 5, 6, 7, 8, 9, 10, 11, 12, 15};
    struct guarded site;
    uint8_t code;
    size_t i;

    for (i = 0; i < 300; i++) {
        draw_site(&site, i % 2);
        compare_many(&site);
        flip(site.state, draw(BITS));
        compare_many(&site);
    }
    for (i = 0; i < sizeof numbers; i++)
        CHECK(seen.numbers[numbers[i]] >= 50);
    for (code = PANELRIGHTS_REMOVE_STRUCTURE; code <= PANELRIGHTS_REMOVE_EXPORT; code += 2)
        CHECK(seen.pairs[code][IMPORT] >= 50 && seen.pairs[code][EXPORT] >= 50);
}

void test_reasons(void)
{
    test_session();
    test_row();
    test_inward();
    test_by_turns();
    test_imports_first();
    test_object_first();
    test_detour();
    test_numbers();
    test_parts();
    test_drawn();
}
