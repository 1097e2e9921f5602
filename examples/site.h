/*
 * What the examples in C share: a site file with its state, how its areas and tables are printed, the words
 * for refusals, numbers as arguments, and the exit statuses.
 */
#ifndef SITE_H
#define SITE_H

#include "panelrights.h"

#include <stdio.h>

/* What has so many bytes or more is refused for its version or length: the rest need not be read. */
enum { FILE_BYTES = 65536 };

struct site {
    uint8_t file[FILE_BYTES];
    size_t file_len;
    uint8_t state[PANELRIGHTS_STATE_BYTES];
};

/* The exit statuses. */
enum { ACCEPTED = 0, REFUSED = 1, FAILED = 2 };

/* The words for the refusals that the examples can meet, which the Rust package has too. */
static const char *const words[] = {
    [PANELRIGHTS_UNKNOWN_CODE] =
        "There is no such instruction. The program that gave it is at fault: tell its maker.",
    [PANELRIGHTS_OUT_OF_RANGE] =
        "A number is out of range: users and areas go from 0 to 31, tables from 0 to 63, and a second "
        "number that is not needed must be 0. Check the numbers that were entered.",
    [PANELRIGHTS_ACTIVATOR_UNLISTED] =
        "The user who asks for this is not listed on the site. An owner of an area can list him by making "
        "him an owner of it too.",
    [PANELRIGHTS_NOT_LISTED] =
        "The area, user or table that is named is not listed on the site. Check its number, or list it "
        "first.",
    [PANELRIGHTS_NOT_OWNER] =
        "The user who asks for this does not own the area. One of its owners can do it; to put an area "
        "into another takes an owner of both, to take it out an owner of either.",
    [PANELRIGHTS_ALREADY_THERE] =
        "It is there already, so there is nothing to add. For a new area or table choose a number that is "
        "free.",
    [PANELRIGHTS_NOT_THERE] =
        "It is not there, so there is nothing to remove. Check the numbers of the area and of what it should "
        "have.",
    [PANELRIGHTS_LAST_ONE] =
        "Each area keeps an owner, and each site an area: the last one can't go. Add another one first.",
    [PANELRIGHTS_AREA_IN_USE] =
        "The area is still in use: it has another owner or a table, lies in an area or has one in it, or "
        "imports or exports a table. Remove all these first.",
    [PANELRIGHTS_WOULD_LACK_ACCESS] =
        "The table does not reach the area, or only over more than 8 steps, so the area can't import or "
        "export it. Either the area must lie in one that sees the table over at most 7 steps and import it "
        "from there, or an area inside it that sees the table over at most 7 steps must export it.",
    [PANELRIGHTS_WOULD_LOSE_ACCESS] =
        "An area that imports or exports a table would lose its access to it: no way of at most 8 steps "
        "would be left. Take back its export and its import of the table first, beginning with the area "
        "that is the most steps away; or first lay another way of at most 8 steps.",
    [PANELRIGHTS_OWN_IMPORT] =
        "The table is stored on this area itself, so the area sees it and has nobody to borrow it from. If "
        "another area is to borrow it, enter that area's number; to lend it to an area around this one, let "
        "this one export it.",
    [PANELRIGHTS_FILE_TOO_SHORT] =
        "The site file is too short to be one: it is empty or was cut off. Fetch it again from where it "
        "was saved.",
    [PANELRIGHTS_FILE_VERSION] =
        "The file has another version than 1, or is no site file. Check that it is the right file; if it "
        "is, save it as version 1.",
    [PANELRIGHTS_FILE_LENGTH] =
        "The site file is longer or shorter than it says itself: part of it was lost, or something was "
        "added. Fetch it again from where it was saved.",
    [PANELRIGHTS_FILE_COUNT] =
        "The site file says that it has more entries of a kind than a site can have. Save the site anew "
        "with the program that wrote it, or go back to a good copy.",
    [PANELRIGHTS_FILE_OFFSET] =
        "A part of the site file is not where it has to be. Save the site anew with the program that wrote "
        "it, or go back to a good copy.",
    [PANELRIGHTS_FILE_RANGE] =
        "A number or a label in the site file is out of range: users and areas go from 0 to 31, tables "
        "from 0 to 63, and a label has 1 to 30 plain characters. Correct the entry and save the site anew.",
    [PANELRIGHTS_FILE_ORDER] =
        "The entries of the site file are out of order, or one stands there twice. Save the site anew with "
        "the program that wrote it.",
    [PANELRIGHTS_FILE_LISTS] =
        "The site file names an area that has no owner or a table that is stored nowhere, stores a table "
        "in two areas, or has no owner at all. Correct the entry and save the site anew.",
    [PANELRIGHTS_FILE_LACKS_ACCESS] =
        "An area in the site file imports or exports a table that does not reach it within 8 steps, or "
        "imports a table that is stored on that same area. In the program that wrote the file, take that "
        "import or export out, or enter a way of at most 8 steps where one is missing, and save the site "
        "anew.",
};

/* What is wrong, and what would help. A later version of the library may have more numbers. */
static void print_words(uint8_t refusal)
{
    if (refusal < sizeof words / sizeof words[0] && words[refusal] != NULL)
        printf("%s", words[refusal]);
    else
        printf("The library refuses this for reason %d, which this program does not know. It needs an "
               "update.",
               refusal);
}

/* The status of a refusal, which is printed. */
static int refuse(uint8_t refusal)
{
    printf("Refused as %d. ", refusal);
    print_words(refusal);
    printf("\n");
    return REFUSED;
}

/* The area's number with its label, if it has one. */
static void print_name(const struct site *site, uint8_t area)
{
    uint32_t label = panelrights_label(site->file, site->file_len, area);
    const char *text = (const char *)site->file + PANELRIGHTS_LABEL_OFFSET(label);

    printf("%d", area);
    if (label != 0)
        printf(" '%.*s'", (int)PANELRIGHTS_LABEL_LENGTH(label), text);
}

static void print_area(const struct site *site, uint8_t area)
{
    printf("area ");
    print_name(site, area);
}

static void print_steps(uint16_t steps)
{
    printf("%d step%s", steps, steps == 1 ? "" : "s");
}

/* The area with the areas that it lies in, as a line. */
static void print_place(const struct site *site, uint8_t area)
{
    uint8_t outer;

    printf("  ");
    print_area(site, area);
    for (outer = 0; outer < PANELRIGHTS_AREAS; outer++) {
        if (PANELRIGHTS_LIES_IN(site->state, area, outer)) {
            printf(", in ");
            print_area(site, outer);
        }
    }
    printf("\n");
}

/* Where the table is defined, and who sees it over how many steps. */
static void print_table(const struct site *site, uint8_t object)
{
    uint8_t area;

    for (area = 0; area < PANELRIGHTS_AREAS; area++) {
        if (PANELRIGHTS_DEFINED_IN(site->state, object, area)) {
            printf("  table %d, defined in ", object);
            print_area(site, area);
            printf("\n");
        }
    }
    for (area = 0; area < PANELRIGHTS_AREAS; area++) {
        /* The number of steps; 255 for no access; more for an area that is not listed. */
        uint16_t steps = panelrights_access(site->state, sizeof site->state, area, object);

        if (steps >= PANELRIGHTS_NO_ACCESS)
            continue;
        printf("    ");
        print_area(site, area);
        printf(" sees it over ");
        print_steps(steps);
        printf("%s%s\n", PANELRIGHTS_IMPORTED_BY(site->state, object, area) ? ", imports it" : "",
               PANELRIGHTS_EXPORTED_BY(site->state, object, area) ? ", exports it" : "");
    }
}

/* The file's bytes, at most FILE_BYTES; 0 if it can't be read. */
static int load(struct site *site, const char *name)
{
    FILE *file = fopen(name, "rb");
    int failed;

    if (file == NULL)
        return 0;
    site->file_len = fread(site->file, 1, sizeof site->file, file);
    failed = ferror(file);
    fclose(file);
    return !failed;
}

/* The status of reading the site file of this name; a refusal is printed. */
static int read_site(struct site *site, const char *name, const char *program)
{
    uint8_t refusal;

    if (!load(site, name)) {
        fprintf(stderr, "%s: the file can't be read\n", program);
        return FAILED;
    }
    refusal = panelrights_read_file(site->file, site->file_len, site->state, sizeof site->state);
    return refusal == PANELRIGHTS_OK ? ACCEPTED : refuse(refusal);
}

/* Reads a decimal number from 0 to 255; 0 if the text is none. A wider one must not become a byte unseen. */
static int read_argument(const char *text, uint8_t *number)
{
    unsigned value = 0;

    if (*text == '\0')
        return 0;
    for (; *text != '\0'; text++) {
        if (*text < '0' || *text > '9')
            return 0;
        value = value * 10 + (unsigned)(*text - '0');
        if (value > 255)
            return 0;
    }
    *number = (uint8_t)value;
    return 1;
}

/* The status, once all is written. */
static int finished(int status, const char *program)
{
    if (fflush(stdout) == 0 && !ferror(stdout))
        return status;
    fprintf(stderr, "%s: the output can't be written\n", program);
    return FAILED;
}

#endif
