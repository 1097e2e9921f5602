/*
 * Instructions, recipes and access questions: works out each line of standard input (machine.txt) over the C
 * interface and compares it with the line. The top of that file tells the forms of a line.
 */
#include "cases.h"

#include <ctype.h>
#include <inttypes.h>
#include <stdio.h>
#include <stdlib.h>
#include <string.h>

/* The record of the case. */
static uint8_t *site;

/* The recipe that the case gave last. */
static struct {
    int given, called;
    size_t length;
    uint8_t bytes[128];
} recipe;

/* What was done so far, in all and in the case. */
static struct {
    unsigned long cases, instructions, refused, questions, counts, writes, lines_of_case;
    unsigned long recipes, refused_recipes;
} done;

/* Obeys an instruction; a refused one must leave the record as it was. */
static uint8_t obey(uint8_t code, uint8_t activator, uint8_t a, uint8_t b)
{
    uint8_t given[PANELRIGHTS_STATE_BYTES];
    uint8_t refusal;

    memcpy(given, site, sizeof given);
    refusal = panelrights_step(site, PANELRIGHTS_STATE_BYTES, code, activator, a, b);
    done.instructions++;
    if (refusal != PANELRIGHTS_OK) {
        done.refused++;
        if (memcmp(site, given, sizeof given) != 0)
            fail("%d %d %d %d is refused as %d and changes the record", code, activator, a, b, refusal);
    }
    return refusal;
}

/* Obeys the recipe, whose bytes stay; a refused one must leave the record as it was. */
static uint16_t obey_recipe(uint8_t activator, const uint8_t p[4])
{
    uint8_t given[PANELRIGHTS_STATE_BYTES];
    uint8_t *bytes = allocate(recipe.length);
    uint16_t answer;

    memcpy(given, site, sizeof given);
    if (recipe.length > 0)
        memcpy(bytes, recipe.bytes, recipe.length);
    answer = panelrights_recipe(site, PANELRIGHTS_STATE_BYTES, bytes, recipe.length, activator, p[0], p[1],
                                p[2], p[3]);
    done.recipes++;
    if (recipe.length > 0 && memcmp(bytes, recipe.bytes, recipe.length) != 0)
        fail("the recipe is changed");
    if (answer != PANELRIGHTS_OK) {
        done.refused_recipes++;
        if (memcmp(site, given, sizeof given) != 0)
            fail("the recipe gets %d and changes the record", answer);
    }
    free(bytes);
    return answer;
}

/*
 * Each of these takes the lines of one form, without the spaces at the front. It gives 0 for any other line;
 * or 1, and writes the line as it comes out. Its numbers are those that the library got, so one that does not
 * fit, above 255 in an instruction, comes out as another.
 */
static int take_instruction(const char *text, char *worked)
{
    unsigned code, activator, a, b;
    uint8_t refusal;

    if (sscanf(text, "%3u %3u %3u %3u", &code, &activator, &a, &b) != 4)
        return 0;
    refusal = obey((uint8_t)code, (uint8_t)activator, (uint8_t)a, (uint8_t)b);
    sprintf(worked, "%d %d %d %d: %d", (uint8_t)code, (uint8_t)activator, (uint8_t)a, (uint8_t)b, refusal);
    return 1;
}

/* A recipe that is not called would pass whatever the library does. */
static void end_recipe(void)
{
    if (recipe.given && !recipe.called)
        fail("a recipe that is not called ends here");
    recipe.given = 0;
}

/* Bytes of a recipe, a comma behind five: the first ones, or more. */
static int take_bytes(const char *text, char *worked)
{
    static const char *const words[] = {"and:", "recipe:"};
    const int first = strncmp(text, words[1], strlen(words[1])) == 0;
    const char *comma = "";
    unsigned byte;
    int end;

    if (strncmp(text, words[first], strlen(words[first])) != 0)
        return 0;
    if (first) {
        end_recipe();
        recipe.length = 0;
        recipe.given = 1;
    }
    recipe.called = 0;
    if (!recipe.given)
        fail("no recipe has begun: %s", text);
    worked += sprintf(worked, "%s", words[first]);
    text += strlen(words[first]);
    while (sscanf(text, " %3u%n", &byte, &end) == 1) {
        if (recipe.length == sizeof recipe.bytes)
            fail("more bytes than there is room for");
        recipe.bytes[recipe.length++] = (uint8_t)byte;
        worked += sprintf(worked, "%s %d", comma, (uint8_t)byte);
        comma = recipe.length % PANELRIGHTS_RECIPE_ENTRY_BYTES == 0 ? "," : "";
        text += end + (text[end] == ',');
    }
    return 1;
}

static int take_call(const char *text, char *worked)
{
    unsigned activator, numbers[4];
    uint8_t p[4];
    uint16_t answer;
    size_t i;

    if (sscanf(text, "by %3u with %3u %3u %3u %3u", &activator, &numbers[0], &numbers[1], &numbers[2],
               &numbers[3]) != 5)
        return 0;
    if (!recipe.given)
        fail("no recipe has begun: %s", text);
    for (i = 0; i < 4; i++)
        p[i] = (uint8_t)numbers[i];
    recipe.called = 1;
    answer = obey_recipe((uint8_t)activator, p);
    sprintf(worked, "by %d with %d %d %d %d: %d at place %d", (uint8_t)activator, p[0], p[1], p[2], p[3],
            PANELRIGHTS_RECIPE_NUMBER(answer), PANELRIGHTS_RECIPE_PLACE(answer));
    return 1;
}

static int take_question(const char *text, char *worked)
{
    uint8_t given[PANELRIGHTS_STATE_BYTES];
    uint32_t area, object;
    uint16_t answer;

    if (sscanf(text, "area %10" SCNu32 ", object %10" SCNu32, &area, &object) != 2)
        return 0;
    done.questions++;
    memcpy(given, site, sizeof given);
    answer = panelrights_access(site, PANELRIGHTS_STATE_BYTES, area, object);
    if (memcmp(site, given, sizeof given) != 0)
        fail("the question changes the record: %s", text);
    worked += sprintf(worked, "area %" PRIu32 ", object %" PRIu32 ": ", area, object);
    if (answer >= PANELRIGHTS_ACCESS_REFUSED)
        sprintf(worked, "refused %d", answer - PANELRIGHTS_ACCESS_REFUSED);
    else if (answer == PANELRIGHTS_NO_ACCESS)
        sprintf(worked, "no access");
    else
        sprintf(worked, "steps %d", answer);
    return 1;
}

/* Definition pairs are not among the counts: each object has one. */
static int take_counts(const char *text, char *worked)
{
    static const size_t counted[] = {0, 1, 2, 3, 5, 6, 7};
    unsigned counts[TABLES];
    size_t i;

    if (strncmp(text, "state", strlen("state")) != 0)
        return 0;
    done.counts++;
    count(site, counts);
    worked += sprintf(worked, "state");
    for (i = 0; i < sizeof counted / sizeof *counted; i++)
        worked += sprintf(worked, " %u", counts[counted[i]]);
    return 1;
}

/* Obeys an instruction of user 0 that must be accepted. */
static void build(uint8_t code, unsigned a, unsigned b)
{
    uint8_t refusal = obey(code, 0, (uint8_t)a, (uint8_t)b);

    if (refusal != PANELRIGHTS_OK)
        fail("%d 0 %u %u is refused as %d", code, a, b, refusal);
}

/* Lists the area. Outward, the area before it is put into it; inward, it is put into the area before. */
static void tie(unsigned area, int outward)
{
    build(PANELRIGHTS_LIST_AREA, area, 0);
    if (outward)
        build(PANELRIGHTS_ADD_STRUCTURE, area - 1, area);
    else
        build(PANELRIGHTS_ADD_STRUCTURE, area, area - 1);
}

/* The entry by which object 9 then moves there from the area before: an export by that one, or an import. */
static void lend(unsigned area, int outward)
{
    if (outward)
        build(PANELRIGHTS_ADD_EXPORT, area - 1, 9);
    else
        build(PANELRIGHTS_ADD_IMPORT, area, 9);
}

/* Exports by areas 0 to m lead outward to areas 1 to m + 1, imports by areas 1 to m inward to these. */
static int take_row(const char *text, char *worked)
{
    static const char *const rows[] = {
        "areas 1 to %u, each in the one before; areas 1 to %u import object 9",
        "areas 1 to %u, each in the next; areas 0 to %u export object 9",
    };
    unsigned last, lending, area;
    int outward;

    for (outward = 0; outward <= 1; outward++) {
        if (sscanf(text, rows[outward], &last, &lending) != 2)
            continue;
        sprintf(worked, rows[outward], last, lending);
        if (strcmp(worked, text) != 0)
            return 0;
        for (area = 1; area <= last; area++)
            tie(area, outward);
        for (area = 1; area <= lending + outward; area++)
            lend(area, outward);
        return 1;
    }
    return 0;
}

static int take_zigzag(const char *text, char *worked)
{
    unsigned last, area;

    if (sscanf(text, "areas 1 to %u", &last) != 1)
        return 0;
    sprintf(worked, "areas 1 to %u in a zigzag, object 9 along it", last);
    if (strcmp(worked, text) != 0)
        return 0;
    for (area = 1; area <= last; area++) {
        tie(area, area % 2);
        lend(area, area % 2);
    }
    return 1;
}

/* Makes a bit of the record 1. */
static void write_bit(size_t bit)
{
    if (is_set(site, bit))
        fail("the record has this already");
    flip(site, bit);
    done.writes++;
}

static int take_listing(const char *text, char *worked)
{
    char list[8];
    unsigned number;

    if (sscanf(text, "the record: %7s %3u", list, &number) != 2)
        return 0;
    sprintf(worked, "the record: %s %u listed", list, number);
    if (strcmp(worked, text) != 0)
        return 0;
    if (strcmp(list, "user") == 0 && number < PANELRIGHTS_USERS)
        write_bit(USER_AT(number));
    else if (strcmp(list, "area") == 0 && number < PANELRIGHTS_AREAS)
        write_bit(AREA_AT(number));
    else if (strcmp(list, "object") == 0 && number < PANELRIGHTS_OBJECTS)
        write_bit(OBJECT_AT(number));
    else
        return 0;
    return 1;
}

static int take_pair(const char *text, char *worked)
{
    static const char *const words[] = {"defined in", "imported by", "exported by"};
    unsigned object, area;
    size_t i;

    if (sscanf(text, "the record: object %3u %*s %*s area %3u", &object, &area) != 2 ||
        object >= PANELRIGHTS_OBJECTS || area >= PANELRIGHTS_AREAS)
        return 0;
    for (i = 0; i < sizeof words / sizeof *words; i++) {
        const size_t bits[] = {DEFINITION_AT(object, area), IMPORT_AT(object, area), EXPORT_AT(object, area)};

        sprintf(worked, "the record: object %u %s area %u", object, words[i], area);
        if (strcmp(worked, text) == 0) {
            write_bit(bits[i]);
            return 1;
        }
    }
    return 0;
}

static int take_emptying(const char *text, char *worked)
{
    if (strcmp(text, "the record: nothing listed, no pair") != 0)
        return 0;
    memset(site, 0, PANELRIGHTS_STATE_BYTES);
    done.writes++;
    strcpy(worked, text);
    return 1;
}

static int (*const forms[])(const char *text, char *worked) = {
    take_instruction, take_bytes,  take_call,    take_question, take_counts,
    take_row,         take_zigzag, take_listing, take_pair,     take_emptying,
};

/* A case without a line would pass whatever the library does. */
static void end_case(void)
{
    if (done.cases > 0 && done.lines_of_case == 0)
        fail("a case without a line ends here");
    done.lines_of_case = 0;
    end_recipe();
}

static void begin_case(const char *heading)
{
    if (!islower((unsigned char)heading[0]))
        fail("this fits no form: %s", heading);
    end_case();
    done.cases++;
    if (panelrights_founding(site, PANELRIGHTS_STATE_BYTES) != PANELRIGHTS_OK)
        fail("no founding state");
}

static void work_out(const char *line)
{
    const char *text = line + strspn(line, " ");
    char worked[1024];
    size_t i;

    for (i = 0; i < sizeof forms / sizeof *forms; i++) {
        if (forms[i](text, worked)) {
            done.lines_of_case++;
            if (done.cases == 0)
                fail("no case has begun: %s", line);
            if (text != line + 2 || strcmp(worked, text) != 0)
                fail("'%s' is expected, and '  %s' comes", line, worked);
            return;
        }
    }
    begin_case(line);
}

int main(void)
{
    const char *line;

    site = allocate(PANELRIGHTS_STATE_BYTES);
    memset(site, 0, PANELRIGHTS_STATE_BYTES);
    while ((line = next_line()) != NULL)
        if (line[0] != '#')
            work_out(line);
    end_case();
    if (done.cases == 0)
        fail("no case");
    printf("%lu cases of the machine with %lu instructions (%lu refused), ", done.cases, done.instructions,
           done.refused);
    printf("%lu recipes (%lu refused), %lu questions, %lu counts of a state and %lu writes to a record\n",
           done.recipes, done.refused_recipes, done.questions, done.counts, done.writes);
    free(site);
    return 0;
}
