/*
 * For the handover of a site: who may change what, and who sees which table over how many steps. With
 * --change the instructions on standard input are obeyed first, all of them or none, and the file is saved.
 * With --why it is told instead why an area sees a table, or why not.
 * Usage: handover [--change | --why AREA TABLE] FILE. The exit status is 0; 1 if the library refuses the file,
 * an instruction or the question, or a line is unreadable; 2 for bad usage, for more than 65,536 bytes of
 * instructions, and if something can't be read or written.
 */
#include "site.h"

#include <stdlib.h>
#include <string.h>

/* How many bytes of instructions are taken, as by PanelRights. */
enum { INPUT_MOST = 65536 };

/* Document 01's number for an unreadable line. The library reads no lines, and has no such refusal. */
enum { UNREADABLE_LINE = 13 };
static const char unreadable[] =
    "The line can't be read: it must have four numbers from 0 to 255, without leading zeros and with one space "
    "between them, and a line end behind. Correct the line.";

/* The site's labels as panelrights_write_file takes them. */
struct labels {
    uint8_t block[PANELRIGHTS_AREAS * PANELRIGHTS_LABEL_ENTRY_BYTES];
    size_t len;
};

static void print_areas(const struct site *site)
{
    uint8_t area;

    printf("Areas\n");
    for (area = 0; area < PANELRIGHTS_AREAS; area++)
        if (PANELRIGHTS_HAS_AREA(site->state, area))
            print_place(site, area);
}

static void print_owners(const struct site *site)
{
    uint8_t user, area;

    printf("\nWho may change what\n");
    for (user = 0; user < PANELRIGHTS_USERS; user++) {
        for (area = 0; area < PANELRIGHTS_AREAS; area++) {
            if (PANELRIGHTS_OWNS(site->state, user, area)) {
                printf("  user %d may change ", user);
                print_area(site, area);
                printf("\n");
            }
        }
    }
}

static void print_tables(const struct site *site)
{
    uint8_t object;

    printf("\nWho sees which table\n");
    for (object = 0; object < PANELRIGHTS_OBJECTS; object++)
        if (PANELRIGHTS_HAS_OBJECT(site->state, object))
            print_table(site, object);
}

static void print_handover(const struct site *site)
{
    print_areas(site);
    print_owners(site);
    print_tables(site);
}

/* The area where a sentence begins. */
static void print_subject(const struct site *site, uint8_t area)
{
    printf("Area ");
    print_name(site, area);
}

/* A sentence with two areas in it, as a line. */
static void print_sentence(const struct site *site, uint8_t first, const char *between, uint8_t second,
                           const char *end)
{
    print_subject(site, first);
    printf(" %s ", between);
    print_area(site, second);
    printf("%s\n", end);
}

/* How the table moves one step: by export, by import, or by both. */
static void print_move(const struct site *site, uint8_t object, uint8_t from, uint8_t to)
{
    const uint8_t *state = site->state;
    int lent = PANELRIGHTS_EXPORTED_BY(state, object, from) && PANELRIGHTS_LIES_IN(state, from, to);
    int borrowed = PANELRIGHTS_IMPORTED_BY(state, object, to) && PANELRIGHTS_LIES_IN(state, to, from);

    if (lent && borrowed)
        print_sentence(site, from, "lends the table to", to, ", which also borrows it: each lies in the other.");
    else if (lent)
        print_sentence(site, from, "lies in", to, " and lends it the table.");
    else
        print_sentence(site, to, "lies in", from, " and borrows the table from it.");
}

/* Where the table is stored, at 0 steps, or who sees it over how many. */
static void print_reached(const struct site *site, uint8_t area, uint8_t steps)
{
    if (steps == 0) {
        printf("The table is stored on ");
        print_area(site, area);
    } else {
        print_subject(site, area);
        printf(" sees it over ");
        print_steps(steps);
    }
    printf(".\n");
}

/* The chain from the area that defines the table to the one that sees it. */
static void print_chain(const struct site *site, uint8_t object, const uint8_t *areas, uint16_t count)
{
    uint16_t steps = count - 1, i;

    print_subject(site, areas[steps]);
    printf(" sees table %d", object);
    if (steps == 0) {
        printf(": it is stored there.\n");
        return;
    }
    printf(" over ");
    print_steps(steps);
    printf(".\n");
    print_reached(site, areas[0], 0);
    for (i = 0; i < steps; i++)
        print_move(site, object, areas[i], areas[i + 1]);
}

/* How far the table comes that the area does not see. */
static void print_counts(const struct site *site, uint8_t object, uint8_t unreached, const uint8_t *counts)
{
    uint8_t steps, area;

    print_subject(site, unreached);
    printf(" does not see table %d: no chain of %d steps or fewer leads to it.\n", object,
           PANELRIGHTS_MOST_STEPS);
    for (steps = 0; steps <= PANELRIGHTS_MOST_STEPS; steps++)
        for (area = 0; area < PANELRIGHTS_AREAS; area++)
            if (counts[area] == steps)
                print_reached(site, area, steps);
    printf("No other area sees it.\n");
}

/* Why the area sees the table, or why not; a refusal is printed. */
static int print_why(const struct site *site, uint8_t area, uint8_t object)
{
    uint8_t told[PANELRIGHTS_EXPLAIN_BYTES];
    uint16_t answer = panelrights_explain(site->state, sizeof site->state, area, object, told, sizeof told);

    if (answer < PANELRIGHTS_EXPLAIN_REFUSED)
        print_chain(site, object, told, answer);
    else if (answer == PANELRIGHTS_EXPLAIN_COUNTS + PANELRIGHTS_EXPLAIN_BYTES)
        print_counts(site, object, area, told);
    else
        return refuse((uint8_t)(answer & 0xff));
    return ACCEPTED;
}

/* The file was accepted, so the answer is not 0. */
static void take_labels(struct labels *labels, const struct site *site)
{
    uint32_t block = panelrights_labels(site->file, site->file_len);

    labels->len = PANELRIGHTS_LABEL_LENGTH(block);
    memcpy(labels->block, site->file + PANELRIGHTS_LABEL_OFFSET(block), labels->len);
}

/* Takes out the labels of areas that are not listed. */
static void keep_listed(struct labels *labels, const uint8_t *state)
{
    size_t at, kept = 0;

    for (at = 0; at < labels->len; at += PANELRIGHTS_LABEL_ENTRY_BYTES) {
        /* The first byte of an entry is the area. */
        if (PANELRIGHTS_HAS_AREA(state, labels->block[at])) {
            memmove(labels->block + kept, labels->block + at, PANELRIGHTS_LABEL_ENTRY_BYTES);
            kept += PANELRIGHTS_LABEL_ENTRY_BYTES;
        }
    }
    labels->len = kept;
}

/* The file of the state and these labels, in place of the one that was read. */
static int write_site(struct site *site, const struct labels *labels)
{
    uint32_t answer = panelrights_write_file(site->state, sizeof site->state, labels->block, labels->len,
                                             site->file, sizeof site->file);

    if (answer >= PANELRIGHTS_WRITE_REFUSED)
        return 0;
    site->file_len = answer;
    return 1;
}

/* Reads a decimal number from 0 to 255 without leading zeros. What stands behind it; NULL if it is none. */
static const uint8_t *read_number(const uint8_t *at, const uint8_t *end, uint8_t *number)
{
    const uint8_t *first = at;
    unsigned value = 0;

    for (; at < end && *at >= '0' && *at <= '9'; at++) {
        value = value * 10 + (unsigned)(*at - '0');
        if (value > 255 || (at > first && *first == '0'))
            return NULL;
    }
    *number = (uint8_t)value;
    return at > first ? at : NULL;
}

/* Reads a line: four numbers, one space between, and byte 10. What stands behind it; NULL if unreadable. */
static const uint8_t *read_line(const uint8_t *at, const uint8_t *end, uint8_t numbers[4])
{
    int i;

    for (i = 0; i < 4; i++) {
        at = read_number(at, end, &numbers[i]);
        if (at == NULL || at == end || *at != (i < 3 ? ' ' : '\n'))
            return NULL;
        at++;
    }
    return at;
}

static void print_refused_line(unsigned line, uint8_t refusal)
{
    printf("Refused as %d. At line %u: ", refusal, line);
    if (refusal == UNREADABLE_LINE)
        printf("%s", unreadable);
    else
        print_words(refusal);
    printf(" Nothing was changed.\n");
}

/* Who would lose what by a removal that is refused as 11. The labels of areas stand in the site's file, which
 * must be that of the lines obeyed so far. */
static void print_lost(struct site *site, const struct labels *labels, const uint8_t line[4])
{
    uint32_t reason = panelrights_explain_step(site->state, sizeof site->state, line[0], line[1], line[2], line[3]);
    int imports = PANELRIGHTS_REASON_LOST(reason) == PANELRIGHTS_LOST_IMPORT;

    write_site(site, labels);
    print_subject(site, PANELRIGHTS_REASON_AREA(reason));
    printf(" %s table %d and would no longer have access to it.\n", imports ? "borrows" : "lends",
           PANELRIGHTS_REASON_OBJECT(reason));
}

/* Obeys one line after the other, up to the first that is refused, which is printed. */
static int obey_lines(struct site *site, struct labels *labels, const uint8_t *at, const uint8_t *end)
{
    unsigned line;

    for (line = 1; at < end; line++) {
        uint8_t numbers[4];
        uint8_t refusal = UNREADABLE_LINE;

        at = read_line(at, end, numbers);
        if (at != NULL)
            refusal = panelrights_step(site->state, sizeof site->state, numbers[0], numbers[1], numbers[2],
                                       numbers[3]);
        if (refusal != PANELRIGHTS_OK) {
            print_refused_line(line, refusal);
            if (refusal == PANELRIGHTS_WOULD_LOSE_ACCESS)
                print_lost(site, labels, numbers);
            return REFUSED;
        }
        /* At each line: an area that is listed again later is another one, and has not the old label. */
        keep_listed(labels, site->state);
    }
    return ACCEPTED;
}

/* Has the file of this name the site's bytes? */
static int is_whole(const char *name, const struct site *site)
{
    static struct site copy;

    return load(&copy, name) && copy.file_len == site->file_len &&
           memcmp(copy.file, site->file, site->file_len) == 0;
}

/* Writes the site's bytes to a new file, which takes the place of the old one once it is whole. Else it is
 * removed, and the old one stays as it was. */
static int replace(const char *old_name, const char *new_name, const struct site *site)
{
    FILE *file = fopen(new_name, "wb");
    int written, closed;

    /* What is there and can't be opened, such as a folder, is not ours to remove. */
    if (file == NULL)
        return 0;
    written = fwrite(site->file, 1, site->file_len, file) == site->file_len && fflush(file) == 0;
    closed = fclose(file) == 0;
    if (written && closed && is_whole(new_name, site) && rename(new_name, old_name) == 0)
        return 1;
    remove(new_name);
    return 0;
}

/* Saves the site's bytes; 0 if they can't be written. */
static int save(const char *name, const struct site *site)
{
    static const char behind[] = ".new";
    size_t length = strlen(name);
    char *new_name = malloc(length + sizeof behind);
    int saved;

    if (new_name == NULL)
        return 0;
    memcpy(new_name, name, length);
    memcpy(new_name + length, behind, sizeof behind);
    saved = replace(name, new_name, site);
    free(new_name);
    return saved;
}

static int complain(const char *what)
{
    fprintf(stderr, "handover: %s\n", what);
    return FAILED;
}

/* Obeys the instructions on standard input and saves the site, or does neither. */
static int change(struct site *site, const char *name)
{
    static uint8_t input[INPUT_MOST + 1];
    static struct labels labels;
    size_t input_len = fread(input, 1, sizeof input, stdin);
    int status;

    if (ferror(stdin))
        return complain("the instructions can't be read");
    if (input_len > INPUT_MOST)
        return complain("the instructions are too long");
    take_labels(&labels, site);
    status = obey_lines(site, &labels, input, input + input_len);
    if (status == ACCEPTED && !(write_site(site, &labels) && save(name, site)))
        return complain("the file can't be written");
    return status;
}

/* What the arguments ask for. */
struct request {
    int changes, asks;
    uint8_t area, object;
    const char *name;
};

/* Reads the arguments; 0 if they are wrong. */
static int read_request(struct request *request, int argc, char **argv)
{
    request->changes = argc > 1 && strcmp(argv[1], "--change") == 0;
    request->asks = argc > 1 && strcmp(argv[1], "--why") == 0;
    if (argc != (request->changes ? 3 : request->asks ? 5 : 2))
        return 0;
    request->name = argv[argc - 1];
    return !request->asks || (read_argument(argv[2], &request->area) && read_argument(argv[3], &request->object));
}

int main(int argc, char **argv)
{
    static struct site site;
    struct request request;
    int status;

    if (!read_request(&request, argc, argv)) {
        fprintf(stderr, "usage: handover [--change | --why AREA TABLE] FILE, numbers from 0 to 255\n");
        return FAILED;
    }
    status = read_site(&site, request.name, "handover");
    if (status == ACCEPTED && request.changes)
        status = change(&site, request.name);
    if (status == ACCEPTED && request.asks)
        status = print_why(&site, request.area, request.object);
    else if (status == ACCEPTED)
        print_handover(&site);
    return finished(status, "handover");
}
