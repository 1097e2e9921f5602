/* Buffers that end, or begin, where memory ends: a call that reads or writes a byte too far stops the
 * program. */
#define _DEFAULT_SOURCE
#include "tests.h"

#include <string.h>
#include <sys/mman.h>

/* Room for a record or a file, with a page that may not be touched on either side. */
enum { ROOM = 1 << 16 };

static uint8_t *room(void)
{
    uint8_t *memory = mmap(NULL, 3 * (size_t)ROOM, PROT_NONE, MAP_PRIVATE | MAP_ANONYMOUS, -1, 0);

    CHECK(memory != MAP_FAILED);
    CHECK(mprotect(memory + ROOM, ROOM, PROT_READ | PROT_WRITE) == 0);
    return memory + ROOM;
}

static const uint8_t list_area[PANELRIGHTS_RECIPE_ENTRY_BYTES] = {PANELRIGHTS_LIST_AREA, 0, 31, 0, 0};

/* Area 31 defines object 63, and area 0 has no access to it. Once area 31 exports it, this is what is lost.
 */
static void explain_record(uint8_t *state)
{
    uint8_t buffer[PANELRIGHTS_EXPLAIN_BYTES];

    CHECK_NUMBER(panelrights_explain(state, PANELRIGHTS_STATE_BYTES, 31, 63, buffer, sizeof buffer), 1);
    CHECK_NUMBER(buffer[0], 31);
    CHECK_NUMBER(panelrights_explain(state, PANELRIGHTS_STATE_BYTES, 0, 63, buffer, sizeof buffer), 512 + 32);
    CHECK(buffer[0] == 255 && buffer[30] == 255 && buffer[31] == 0);
    CHECK_NUMBER(panelrights_explain_step(state, PANELRIGHTS_STATE_BYTES, PANELRIGHTS_ADD_IMPORT, 0, 31, 63),
                 PANELRIGHTS_OWN_IMPORT);
    SET(state, EXPORT_AT(63, 31));
    CHECK_NUMBER(
        panelrights_explain_step(state, PANELRIGHTS_STATE_BYTES, PANELRIGHTS_REMOVE_DEFINITION, 0, 31, 63),
        11 + 256 * 2 + 65536 * 63 + 16777216 * 31);
}

static void use_record(uint8_t *state)
{
    CHECK_NUMBER(panelrights_founding(state, PANELRIGHTS_STATE_BYTES), PANELRIGHTS_OK);
    CHECK_NUMBER(panelrights_step(state, PANELRIGHTS_STATE_BYTES, PANELRIGHTS_LIST_AREA, 0, 31, 0),
                 PANELRIGHTS_OK);
    CHECK_NUMBER(panelrights_step(state, PANELRIGHTS_STATE_BYTES, PANELRIGHTS_DEFINE, 0, 31, 63),
                 PANELRIGHTS_OK);
    CHECK_NUMBER(panelrights_access(state, PANELRIGHTS_STATE_BYTES, 31, 63), 0);
    explain_record(state);
    CHECK_NUMBER(panelrights_step(state, PANELRIGHTS_STATE_BYTES, PANELRIGHTS_ADD_IMPORT, 0, 31, 63),
                 PANELRIGHTS_OWN_IMPORT);
    SET(state, IMPORT_AT(63, 31));
    CHECK_NUMBER(panelrights_access(state, PANELRIGHTS_STATE_BYTES, 31, 63),
                 PANELRIGHTS_ACCESS_REFUSED + PANELRIGHTS_UNSOUND_STATE);
    CHECK_NUMBER(panelrights_read_file(good_file, sizeof good_file, state, PANELRIGHTS_STATE_BYTES),
                 PANELRIGHTS_OK);
}

/* A record of another length is not looked at beyond it. */
static void use_other_length(uint8_t *state, size_t length)
{
    uint8_t buffer[PANELRIGHTS_EXPLAIN_BYTES];

    CHECK_NUMBER(panelrights_founding(state, length), PANELRIGHTS_BUFFER_LENGTH);
    CHECK_NUMBER(panelrights_step(state, length, PANELRIGHTS_LIST_AREA, 0, 31, 0), PANELRIGHTS_UNSOUND_STATE);
    CHECK_NUMBER(panelrights_recipe(state, length, list_area, sizeof list_area, 0, 0, 0, 0, 0),
                 PANELRIGHTS_UNSOUND_STATE);
    CHECK_NUMBER(panelrights_access(state, length, 0, 0),
                 PANELRIGHTS_ACCESS_REFUSED + PANELRIGHTS_UNSOUND_STATE);
    CHECK_NUMBER(panelrights_explain(state, length, 0, 0, buffer, sizeof buffer),
                 PANELRIGHTS_EXPLAIN_REFUSED + PANELRIGHTS_UNSOUND_STATE);
    CHECK_NUMBER(panelrights_explain(state, length, 0, 0, NULL, 0),
                 PANELRIGHTS_EXPLAIN_REFUSED + PANELRIGHTS_BUFFER_LENGTH);
    CHECK_NUMBER(panelrights_explain_step(state, length, PANELRIGHTS_LIST_AREA, 0, 31, 0),
                 PANELRIGHTS_UNSOUND_STATE);
    CHECK_NUMBER(panelrights_write_file(state, length, NULL, 0, NULL, 0),
                 PANELRIGHTS_WRITE_REFUSED + PANELRIGHTS_UNSOUND_STATE);
}

/* So many bytes of a recipe that lists areas 31, 30, 29 and on. */
static void use_recipe(uint8_t *state, uint8_t *recipe, size_t length)
{
    const int fits = length > 0 && length <= 80 && length % 5 == 0;
    size_t i;

    for (i = 0; i < length; i++)
        recipe[i] = list_area[i % 5];
    for (i = 2; i < length; i += 5)
        recipe[i] = (uint8_t)(31 - i / 5);
    CHECK_NUMBER(panelrights_founding(state, PANELRIGHTS_STATE_BYTES), PANELRIGHTS_OK);
    CHECK_NUMBER(panelrights_recipe(state, PANELRIGHTS_STATE_BYTES, recipe, length, 0, 0, 0, 0, 0),
                 fits ? PANELRIGHTS_OK : PANELRIGHTS_RECIPE_FORM);
    CHECK_NUMBER(PANELRIGHTS_HAS_AREA(state, 31), fits);
    CHECK_NUMBER(PANELRIGHTS_HAS_AREA(state, 32 - length / 5), fits);
}

/* Zeros, so many that the length would fit in 32 bits. */
static void use_long_recipe(uint8_t *state)
{
    const size_t length = ((size_t)1 << 32) + 5;
    uint8_t *zeros = mmap(NULL, length, PROT_READ, MAP_PRIVATE | MAP_ANONYMOUS | MAP_NORESERVE, -1, 0);

    CHECK(zeros != MAP_FAILED);
    CHECK_NUMBER(panelrights_founding(state, PANELRIGHTS_STATE_BYTES), PANELRIGHTS_OK);
    CHECK_NUMBER(panelrights_recipe(state, PANELRIGHTS_STATE_BYTES, zeros, length, 0, 0, 0, 0, 0),
                 PANELRIGHTS_RECIPE_FORM);
    CHECK(munmap(zeros, length) == 0);
}

/* The good file's state with area 3, which lacks access: a buffer of so many bytes, for a chain and for
 * counts. */
static void use_explaining(uint8_t *state, uint8_t *buffer, size_t length)
{
    static const uint8_t chain[] = {1, 2, 0}, counts[] = {2, 0, 1, 255};
    const int fits = length >= PANELRIGHTS_EXPLAIN_BYTES;

    CHECK_NUMBER(panelrights_read_file(good_file, sizeof good_file, state, PANELRIGHTS_STATE_BYTES),
                 PANELRIGHTS_OK);
    SET(state, AREA_AT(3), OWNER_AT(0, 3));
    CHECK_NUMBER(panelrights_explain(state, PANELRIGHTS_STATE_BYTES, 0, 9, buffer, length),
                 fits ? 3 : 256 + 31);
    CHECK(!fits || memcmp(buffer, chain, sizeof chain) == 0);
    CHECK_NUMBER(panelrights_explain(state, PANELRIGHTS_STATE_BYTES, 3, 9, buffer, length),
                 fits ? 512 + 32 : 256 + 31);
    CHECK(!fits || (memcmp(buffer, counts, sizeof counts) == 0 && buffer[31] == 255));
}

/* Record and buffer where memory ends, and where it begins. */
static void use_explainings(void)
{
    uint8_t *state = room(), *buffer = room();
    size_t length;

    for (length = 0; length <= 70; length++)
        use_explaining(state + ROOM - PANELRIGHTS_STATE_BYTES, buffer + ROOM - length, length);
    use_explaining(state, buffer, PANELRIGHTS_EXPLAIN_BYTES);
    CHECK(munmap(state - ROOM, 3 * (size_t)ROOM) == 0);
    CHECK(munmap(buffer - ROOM, 3 * (size_t)ROOM) == 0);
}

/*
 * The first bytes of the good file: all of it is accepted, and fewer are refused; and so is all of it with
 * area 1 for area 0 as the one that imports, since area 1 defines the object.
 */
static void use_file(uint8_t *file, size_t length)
{
    struct guarded site;
    uint8_t refusal = length < 28                 ? PANELRIGHTS_FILE_TOO_SHORT
                      : length < sizeof good_file ? PANELRIGHTS_FILE_LENGTH
                                                  : PANELRIGHTS_OK;

    memcpy(file, good_file, length);
    CHECK_NUMBER(panelrights_read_file(file, length, site.state, sizeof site.state), refusal);
    CHECK_NUMBER(panelrights_label(file, length, 2), refusal == PANELRIGHTS_OK ? 78 * 65536 + 30 : 0);
    CHECK_NUMBER(panelrights_labels(file, length), refusal == PANELRIGHTS_OK ? 44 * 65536 + 64 : 0);
    if (refusal == PANELRIGHTS_OK) {
        file[41] = 1;
        CHECK_NUMBER(panelrights_read_file(file, length, site.state, sizeof site.state),
                     PANELRIGHTS_FILE_LACKS_ACCESS);
        CHECK_NUMBER(panelrights_label(file, length, 2), 0);
        CHECK_NUMBER(panelrights_labels(file, length), 0);
    }
}

/* The good file is written again, with so many bytes of its label block, into a buffer of so many bytes. */
static void use_writing(uint8_t *end_of_state, uint8_t *end_of_labels, uint8_t *end_of_file,
                        size_t labels_len, size_t file_len)
{
    uint8_t *state = end_of_state - PANELRIGHTS_STATE_BYTES, *labels = end_of_labels - labels_len;
    const size_t length = 44 + labels_len;
    const uint32_t expected = labels_len % 32 != 0 ? PANELRIGHTS_WRITE_REFUSED + PANELRIGHTS_LABEL_BLOCK
                              : file_len < length  ? PANELRIGHTS_WRITE_REFUSED + PANELRIGHTS_BUFFER_LENGTH
                                                   : (uint32_t)length;

    CHECK_NUMBER(panelrights_read_file(good_file, sizeof good_file, state, PANELRIGHTS_STATE_BYTES),
                 PANELRIGHTS_OK);
    memcpy(labels, good_file + 44, labels_len);
    memset(end_of_file - file_len, 0, file_len);
    CHECK_NUMBER(panelrights_write_file(state, PANELRIGHTS_STATE_BYTES, labels, labels_len,
                                        end_of_file - file_len, file_len),
                 expected);
    if (expected == sizeof good_file)
        CHECK(memcmp(end_of_file - file_len, good_file, sizeof good_file) == 0);
}

/* Record, label block and buffer where memory ends, and where it begins. */
static void use_writings(void)
{
    uint8_t *state = room(), *labels = room(), *file = room();
    size_t labels_len, file_len;

    for (labels_len = 0; labels_len <= 64; labels_len++)
        for (file_len = 0; file_len <= sizeof good_file + 2; file_len++)
            use_writing(state + ROOM, labels + ROOM, file + ROOM, labels_len, file_len);
    use_writing(state + PANELRIGHTS_STATE_BYTES, labels + 64, file + sizeof good_file, 64, sizeof good_file);
    CHECK(munmap(state - ROOM, 3 * (size_t)ROOM) == 0);
    CHECK(munmap(labels - ROOM, 3 * (size_t)ROOM) == 0);
    CHECK(munmap(file - ROOM, 3 * (size_t)ROOM) == 0);
}

/* Zeros, so many that the length would be 0, or a record's, in 32 bits: no label block, no record, and room
 * enough for a file or an explanation. */
static void use_long_buffers(uint8_t *state)
{
    const size_t length = (size_t)1 << 32, more = length + PANELRIGHTS_STATE_BYTES;
    uint8_t *zeros =
        mmap(NULL, more, PROT_READ | PROT_WRITE, MAP_PRIVATE | MAP_ANONYMOUS | MAP_NORESERVE, -1, 0);

    CHECK(zeros != MAP_FAILED);
    CHECK_NUMBER(panelrights_founding(state, PANELRIGHTS_STATE_BYTES), PANELRIGHTS_OK);
    CHECK_NUMBER(panelrights_write_file(state, PANELRIGHTS_STATE_BYTES, zeros, length, NULL, 0),
                 PANELRIGHTS_WRITE_REFUSED + PANELRIGHTS_LABEL_BLOCK);
    CHECK_NUMBER(panelrights_labels(zeros, length), 0);
    CHECK_NUMBER(panelrights_write_file(state, PANELRIGHTS_STATE_BYTES, NULL, 0, zeros, length), 30);
    CHECK_NUMBER(panelrights_labels(zeros, 30), 30 * 65536);
    CHECK_NUMBER(panelrights_founding(zeros, PANELRIGHTS_STATE_BYTES), PANELRIGHTS_OK);
    CHECK_NUMBER(panelrights_write_file(zeros, more, NULL, 0, NULL, 0),
                 PANELRIGHTS_WRITE_REFUSED + PANELRIGHTS_UNSOUND_STATE);
    CHECK_NUMBER(panelrights_explain(zeros, more, 0, 0, state, PANELRIGHTS_EXPLAIN_BYTES),
                 PANELRIGHTS_EXPLAIN_REFUSED + PANELRIGHTS_UNSOUND_STATE);
    CHECK_NUMBER(panelrights_explain_step(zeros, more, PANELRIGHTS_LIST_AREA, 0, 31, 0),
                 PANELRIGHTS_UNSOUND_STATE);
    use_explaining(state, zeros, length);
    CHECK(munmap(zeros, more) == 0);
}

void test_edges(void)
{
    uint8_t *begin = room(), *end = begin + ROOM;
    size_t length;

    use_record(begin);
    use_record(end - PANELRIGHTS_STATE_BYTES);
    for (length = 0; length <= 8320; length++)
        if (length != PANELRIGHTS_STATE_BYTES)
            use_other_length(end - length, length);
    use_recipe(end - PANELRIGHTS_STATE_BYTES, begin, 80);
    for (length = 0; length <= 100; length++)
        use_recipe(begin, end - length, length);
    use_long_recipe(begin);
    use_file(begin, sizeof good_file);
    for (length = 0; length <= sizeof good_file; length++)
        use_file(end - length, length);
    use_explainings();
    use_writings();
    use_long_buffers(begin);
    CHECK(munmap(begin - ROOM, 3 * (size_t)ROOM) == 0);
}
