/*
 * How much stack a call takes, against what the header says. Each function is called in a thread whose stack
 * was filled beforehand, and what is left of the filling is counted.
 */
#define _DEFAULT_SOURCE
#include "tests.h"

#include <pthread.h>
#include <stdio.h>
#include <string.h>

enum { STACK = 1 << 20, FILLING = 0x5a, STATED = 16 * 1024 };

static uint8_t stack[STACK] __attribute__((aligned(4096)));
static uint8_t state[PANELRIGHTS_STATE_BYTES];
static int right = 1;

/* Object 9 goes along ten areas, by exports, and the last but one imports it too. */
static struct guarded row;

static void call_founding(void)
{
    right &= panelrights_founding(state, sizeof state) == PANELRIGHTS_OK;
}

/* Instructions of all twelve codes, and refused ones, each with its answer. */
static void call_step(void)
{
    static const uint8_t lines[][5] = {
        {1, 0, 1, 0, 0},  {1, 0, 2, 0, 0},  {5, 0, 1, 2, 0},  {5, 0, 0, 2, 0},   {7, 0, 1, 9, 0},
        {9, 0, 0, 9, 10}, {11, 0, 1, 9, 0}, {9, 0, 0, 9, 0},  {12, 0, 1, 9, 11}, {6, 0, 1, 2, 11},
        {8, 0, 1, 9, 11}, {2, 0, 1, 0, 9},  {3, 0, 0, 4, 0},  {10, 4, 0, 9, 0},  {6, 4, 0, 2, 0},
        {12, 0, 1, 9, 0}, {9, 0, 1, 9, 15}, {8, 0, 1, 9, 0},  {6, 0, 1, 2, 0},   {2, 0, 1, 0, 0},
        {4, 4, 0, 4, 0},  {4, 0, 0, 0, 8},  {13, 0, 0, 0, 1}, {3, 0, 0, 32, 2},
    };
    size_t i;

    for (i = 0; i < sizeof lines / sizeof *lines; i++) {
        const uint8_t *line = lines[i];

        right &= panelrights_step(state, sizeof state, line[0], line[1], line[2], line[3]) == line[4];
    }
    right &= panelrights_step(state, sizeof state - 1, 1, 0, 1, 0) == PANELRIGHTS_UNSOUND_STATE;
}

/*
 * In the state of the good file: sixteen instructions that are accepted and lead back to it, removals,
 * imports and exports among them; the same, with the removal of an export that others rest on as the last.
 */
static void call_recipe(void)
{
    static const uint8_t remove_export[PANELRIGHTS_RECIPE_ENTRY_BYTES] = {PANELRIGHTS_REMOVE_EXPORT, 0, 1, 1, 3};
    uint8_t entries[PANELRIGHTS_RECIPE_MOST][PANELRIGHTS_RECIPE_ENTRY_BYTES] = {
        {10, 0, 0, 1, 3}, {6, 0, 0, 0, 2},  {5, 0, 0, 0, 2},  {9, 0, 0, 1, 3},
        {9, 0, 2, 1, 3},  {11, 0, 2, 1, 3}, {11, 0, 0, 1, 3}, {12, 0, 0, 1, 3},
        {12, 0, 2, 1, 3}, {10, 0, 2, 1, 3}, {7, 0, 2, 1, 2},  {9, 0, 0, 1, 2},
        {10, 0, 0, 1, 2}, {8, 0, 2, 1, 2},  {1, 1, 1, 1, 0},  {2, 1, 1, 1, 0},
    };

    right &= panelrights_recipe(state, sizeof state, entries[0], 80, 0, 0, 3, 10, 9) == 0;
    memcpy(entries[15], remove_export, sizeof remove_export);
    right &= panelrights_recipe(state, sizeof state, entries[0], 80, 0, 0, 3, 10, 9) == 16 * 256 + 11;
    right &= panelrights_recipe(state, sizeof state, entries[0], 79, 0, 0, 3, 10, 9) == 14;
    right &= panelrights_recipe(state, sizeof state - 1, entries[0], 80, 0, 0, 3, 10, 9) == 12;
}

static void call_read_file(void)
{
    right &= panelrights_read_file(good_file, 107, state, sizeof state) == PANELRIGHTS_FILE_LENGTH;
    right &= panelrights_read_file(good_file, sizeof good_file, state, sizeof state) == PANELRIGHTS_OK;
}

static void call_access(void)
{
    right &= panelrights_access(state, sizeof state, 0, 9) == 2;
}

static void call_label(void)
{
    right &= panelrights_label(good_file, sizeof good_file, 1) == 46 * 65536 + 6;
}

static void call_labels(void)
{
    right &= panelrights_labels(good_file, sizeof good_file) == 44 * 65536 + 64;
    right &= panelrights_labels(good_file, 107) == 0;
}

/* The state is the good file's: it is written, and refused in each way. */
static void call_write_file(void)
{
    static uint8_t file[GOOD_FILE_BYTES];
    const uint8_t *labels = good_file + 44;

    right &= panelrights_write_file(state, sizeof state, labels, 64, file, sizeof file) == sizeof file;
    right &= memcmp(file, good_file, sizeof file) == 0;
    right &= panelrights_write_file(state, sizeof state, labels, 64, file, 107) == 65536 + 31;
    right &= panelrights_write_file(state, sizeof state, labels, 63, file, sizeof file) == 65536 + 30;
    right &= panelrights_write_file(state, sizeof state - 1, labels, 64, file, sizeof file) == 65536 + 12;
}

/* In the row: a chain as long as one can be, counts, and each refusal. */
static void call_explain(void)
{
    static uint8_t buffer[PANELRIGHTS_EXPLAIN_BYTES];

    right &= panelrights_explain(row.state, sizeof row.state, 8, 9, buffer, sizeof buffer) == 9;
    right &= panelrights_explain(row.state, sizeof row.state, 9, 9, buffer, sizeof buffer) == 512 + 32;
    right &= panelrights_explain(row.state, sizeof row.state, 9, 9, buffer, sizeof buffer - 1) == 256 + 31;
    right &= panelrights_explain(row.state, sizeof row.state - 1, 9, 9, buffer, sizeof buffer) == 256 + 12;
    right &= panelrights_explain(row.state, sizeof row.state, 32, 9, buffer, sizeof buffer) == 256 + 2;
    right &= panelrights_explain(row.state, sizeof row.state, 10, 9, buffer, sizeof buffer) == 256 + 4;
}

/* In the row: the import at its end, which is lost wherever it is cut; no pair; and other refusals. */
static void call_explain_step(void)
{
    const uint32_t lost = 11 + 256 * PANELRIGHTS_LOST_IMPORT + 65536 * 9 + 16777216 * 8;

    right &= panelrights_explain_step(row.state, sizeof row.state, 6, 0, 0, 1) == lost;
    right &= panelrights_explain_step(row.state, sizeof row.state, 8, 0, 0, 9) == lost;
    right &= panelrights_explain_step(row.state, sizeof row.state, 12, 0, 7, 9) == lost;
    right &= panelrights_explain_step(row.state, sizeof row.state, 10, 0, 8, 9) == 0;
    right &= panelrights_explain_step(row.state, sizeof row.state, 9, 0, 9, 9) == PANELRIGHTS_WOULD_LACK_ACCESS;
    right &= panelrights_explain_step(row.state, sizeof row.state - 1, 6, 0, 0, 1) == PANELRIGHTS_UNSOUND_STATE;
}

struct call {
    const char *name;
    void (*work)(void);
    const uint8_t *top; /* of the stack, where the call begins */
};

static void *run(void *argument)
{
    struct call *call = argument;
    uint8_t here = FILLING;

    call->top = &here;
    call->work();
    return NULL;
}

/* The bytes between where the call began and the last of the filling. */
static size_t measure(struct call *call)
{
    pthread_attr_t attributes;
    pthread_t thread;
    const uint8_t *low = stack;

    memset(stack, FILLING, sizeof stack);
    CHECK(pthread_attr_init(&attributes) == 0);
    CHECK(pthread_attr_setstack(&attributes, stack, sizeof stack) == 0);
    CHECK(pthread_create(&thread, &attributes, run, call) == 0);
    CHECK(pthread_join(thread, NULL) == 0);
    CHECK(pthread_attr_destroy(&attributes) == 0);
    while (low < call->top && *low == FILLING)
        low++;
    return (size_t)(call->top - low);
}

int main(void)
{
    struct call calls[] = {
        {"founding", call_founding, NULL},   {"step", call_step, NULL},
        {"read_file", call_read_file, NULL}, {"access", call_access, NULL},
        {"recipe", call_recipe, NULL},       {"label", call_label, NULL},
        {"labels", call_labels, NULL},       {"write_file", call_write_file, NULL},
        {"explain", call_explain, NULL},     {"explain_step", call_explain_step, NULL},
    };
    size_t i;

    found(&row);
    put_object(&row, 9, 0);
    LEND(&row, 9, OUTWARD, 0, 1, 2, 3, 4, 5, 6, 7, 8, 9);
    SET(row.state, IMPORT_AT(9, 8));
    for (i = 0; i < sizeof calls / sizeof *calls; i++) {
        size_t bytes = measure(&calls[i]);

        printf("%s%s %lu", i == 0 ? "bytes of stack: " : ", ", calls[i].name, (unsigned long)bytes);
        CHECK(right);
        CHECK(bytes < STATED);
    }
    printf("\n");
    return 0;
}
