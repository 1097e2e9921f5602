/*
 * Opening a school: nine instructions as a recipe, which runs entirely or not at all. The school and its hall
 * are new areas, and the table is a new one of the school.
 * Usage: opening FILE ACTIVATOR SCHOOL HALL KEYHOLDER TABLE. The exit status is 0; 1 if the library refuses
 * the file or the recipe; 2 if the file can't be read.
 */
#include "site.h"

/* A number in the recipe: its kind and its value. */
#define FIXED(number) PANELRIGHTS_RECIPE_FIXED, number
#define SCHOOL PANELRIGHTS_RECIPE_PARAMETER, 0
#define HALL PANELRIGHTS_RECIPE_PARAMETER, 1
#define KEYHOLDER PANELRIGHTS_RECIPE_PARAMETER, 2
#define TABLE PANELRIGHTS_RECIPE_PARAMETER, 3

static const uint8_t opening[][PANELRIGHTS_RECIPE_ENTRY_BYTES] = {
    {PANELRIGHTS_LIST_AREA, SCHOOL, FIXED(0)},     /* 1 */
    {PANELRIGHTS_LIST_AREA, HALL, FIXED(0)},       /* 2 */
    {PANELRIGHTS_ADD_STRUCTURE, HALL, SCHOOL},     /* 3 */
    {PANELRIGHTS_DEFINE, SCHOOL, TABLE},           /* 4 */
    {PANELRIGHTS_ADD_IMPORT, HALL, TABLE},         /* 5 */
    {PANELRIGHTS_ADD_STRUCTURE, SCHOOL, FIXED(0)}, /* 6 */
    {PANELRIGHTS_ADD_EXPORT, SCHOOL, TABLE},       /* 7 */
    {PANELRIGHTS_ADD_OWNER, SCHOOL, KEYHOLDER},    /* 8 */
    {PANELRIGHTS_ADD_OWNER, HALL, KEYHOLDER},      /* 9 */
};

/* The same in words. */
static const char *const purposes[] = {
    "list the school",
    "list the hall",
    "put the hall into the school",
    "store the table in the school",
    "let the hall import the table",
    "put the school into area 0",
    "let the school export the table",
    "make the keyholder an owner of the school",
    "make the keyholder an owner of the hall",
};

/* What comes with the call. */
struct call {
    uint8_t activator, school, hall, keyholder, table;
};

static void print_new_area(const struct site *site, uint8_t area)
{
    uint8_t user;

    print_place(site, area);
    for (user = 0; user < PANELRIGHTS_USERS; user++)
        if (PANELRIGHTS_OWNS(site->state, user, area))
            printf("    user %d may change it\n", user);
}

static void print_refused(uint16_t answer)
{
    uint8_t place = PANELRIGHTS_RECIPE_PLACE(answer);
    uint8_t refusal = PANELRIGHTS_RECIPE_NUMBER(answer);

    printf("Refused as %d. ", refusal);
    /* Place 0 stands beside a refusal of the whole recipe. */
    if (place != 0)
        printf("At instruction %d of the recipe: ", place);
    print_words(refusal);
    printf(" Nothing was changed.\n");
    if (place != 0)
        printf("Instruction %d was to %s.\n", place, purposes[place - 1]);
}

static int open_school(struct site *site, const struct call *call)
{
    uint16_t answer;

    answer = panelrights_recipe(site->state, sizeof site->state, (const uint8_t *)opening, sizeof opening,
                                call->activator, call->school, call->hall, call->keyholder, call->table);
    if (answer != PANELRIGHTS_OK) {
        print_refused(answer);
        return REFUSED;
    }
    printf("The new areas\n");
    print_new_area(site, call->school);
    print_new_area(site, call->hall);
    printf("\nWho sees the new table\n");
    print_table(site, call->table);
    return ACCEPTED;
}

int main(int argc, char **argv)
{
    static struct site site;
    struct call call;
    int status;

    if (argc != 7 || !read_argument(argv[2], &call.activator) || !read_argument(argv[3], &call.school) ||
        !read_argument(argv[4], &call.hall) || !read_argument(argv[5], &call.keyholder) ||
        !read_argument(argv[6], &call.table)) {
        fprintf(stderr, "usage: opening FILE ACTIVATOR SCHOOL HALL KEYHOLDER TABLE, numbers from 0 to 255\n");
        return FAILED;
    }
    status = read_site(&site, argv[1], "opening");
    if (status == ACCEPTED)
        status = open_school(&site, &call);
    return finished(status, "opening");
}
