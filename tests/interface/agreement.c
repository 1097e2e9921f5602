/* Many recipes, drawn by a fixed sequence of numbers, each beside its instructions given one by one. */
#include "tests.h"

#include <string.h>

/* Mostly one of the few numbers that the sites below have. */
static uint8_t draw_number(void)
{
    static const uint8_t numbers[] = {0, 0, 0, 1, 1, 2, 3, 9};

    return draw(40) == 0 ? (uint8_t)draw(256) : numbers[draw(sizeof numbers)];
}

static void draw_entry(uint8_t entry[PANELRIGHTS_RECIPE_ENTRY_BYTES])
{
    size_t byte;

    entry[0] = (uint8_t)(draw(60) == 0 ? draw(256) : 1 + draw(12));
    for (byte = 1; byte <= 3; byte += 2) {
        entry[byte] = (uint8_t)draw(2);
        entry[byte + 1] = entry[byte] == PANELRIGHTS_RECIPE_PARAMETER ? (uint8_t)draw(4) : draw_number();
    }
}

/* The refusal of an instruction of a recipe that is given by itself. */
static uint8_t step_entry(struct guarded *site, const uint8_t *entry, const struct caller *caller)
{
    uint8_t a = entry[1] == PANELRIGHTS_RECIPE_PARAMETER ? caller->parameters[entry[2]] : entry[2];
    uint8_t b = entry[3] == PANELRIGHTS_RECIPE_PARAMETER ? caller->parameters[entry[4]] : entry[4];

    return panelrights_step(site->state, sizeof site->state, entry[0], caller->activator, a, b);
}

/* For most places instructions are drawn until one is accepted there. */
static struct recipe draw_recipe(struct guarded site, const struct caller *caller)
{
    struct recipe recipe = {PANELRIGHTS_RECIPE_MOST, {{0}}};
    size_t i;

    if (draw(2) == 0)
        recipe.count = 1 + draw(PANELRIGHTS_RECIPE_MOST);
    for (i = 0; i < recipe.count; i++) {
        unsigned tries = draw(10) == 0 ? 1 : 40;

        do
            draw_entry(recipe.entries[i]);
        while (step_entry(&site, recipe.entries[i], caller) != PANELRIGHTS_OK && --tries > 0);
    }
    return recipe;
}

/* How many recipes were accepted, by their length, and refused, by place and by number. */
static struct {
    unsigned accepted[PANELRIGHTS_RECIPE_MOST + 1];
    unsigned refused[PANELRIGHTS_RECIPE_MOST + 1];
    unsigned numbers[256];
} seen;

/* What the recipe should do, and counts it. */
static void work_out(struct guarded *site, const struct recipe *recipe, const struct caller *caller,
                     unsigned *place, unsigned *number)
{
    const struct guarded given = *site;
    unsigned i;

    for (i = 0; i < recipe->count; i++) {
        uint8_t refusal = step_entry(site, recipe->entries[i], caller);

        if (refusal != PANELRIGHTS_OK) {
            *site = given;
            *place = i + 1;
            *number = refusal;
            seen.refused[*place]++;
            seen.numbers[*number]++;
            return;
        }
    }
    *place = *number = 0;
    seen.accepted[recipe->count]++;
}

static void compare(const struct guarded *given)
{
    struct caller caller = {(uint8_t)(draw(10) == 0 ? 1 + draw(3) : 0), {0, 0, 0, 0}};
    struct guarded site = *given, singly = *given;
    struct recipe recipe;
    unsigned place, number;
    size_t i;

    for (i = 0; i < 4; i++)
        caller.parameters[i] = draw_number();
    recipe = draw_recipe(site, &caller);
    work_out(&singly, &recipe, &caller, &place, &number);
    expect(&site, &recipe, &caller, place, number);
    CHECK(memcmp(&site, &singly, sizeof site) == 0);
}

/*
 * Areas 0 to 5 lie in a ring, each in the next. Area 0 defines object 0 and exports it to area 1, which
 * imports it; area 3 defines object 1. User 0 owns all areas, user 1 areas 0 and 3, user 2 area 4.
 */
static void make_ring(struct guarded *site)
{
    static const uint8_t lines[][4] = {
        {1, 0, 1, 0}, {1, 0, 2, 0}, {1, 0, 3, 0}, {1, 0, 4, 0}, {1, 0, 5, 0},  {5, 0, 0, 1},
        {5, 0, 1, 2}, {5, 0, 2, 3}, {5, 0, 3, 4}, {5, 0, 4, 5}, {5, 0, 5, 0},  {3, 0, 0, 1},
        {3, 0, 3, 1}, {3, 0, 4, 2}, {7, 0, 0, 0}, {7, 1, 3, 1}, {11, 1, 0, 0}, {9, 0, 1, 0},
    };
    size_t i;

    found(site);
    for (i = 0; i < sizeof lines / sizeof *lines; i++)
        step(site, lines[i], PANELRIGHTS_OK);
}

/* Enough of each kind was drawn: every length accepted, every place and every number of a refusal. */
static void check_seen(void)
{
    static const uint8_t numbers[] = {1, 2, 3, 4, 5, 6, 7, 8, 9, 10, 11, 15};
    unsigned i;

    for (i = 1; i <= PANELRIGHTS_RECIPE_MOST; i++) {
        CHECK(seen.accepted[i] >= 5);
        CHECK(seen.refused[i] >= 5);
    }
    for (i = 0; i < sizeof numbers; i++)
        CHECK(seen.numbers[numbers[i]] >= 5);
}

void test_agreement(void)
{
    struct guarded founding, file, ring;
    unsigned i;

    found(&founding);
    found(&file);
    CHECK_NUMBER(panelrights_read_file(good_file, sizeof good_file, file.state, sizeof file.state), 0);
    make_ring(&ring);
    for (i = 0; i < 500; i++) {
        compare(&founding);
        compare(&file);
        compare(&ring);
    }
    check_seen();
}
