/*
 * panelrights.h - who may see, lend, change and cut what on a site of fire panels.
 *
 * Link with libpanelrights.a (`make install` puts it in place; `pkg-config --cflags --libs panelrights`
 * gives the flags): C99 or later, x86-64 Linux. The library needs memcpy and memset, allocates nothing and
 * keeps nothing between calls. A call takes less than 16 KiB of stack.
 *
 * You check nothing beforehand. Every function takes any bytes, any numbers and any length, and gives one
 * answer or one refusal number. What you must see to is C's own part:
 *   - the numbers of an instruction, and the activator and parameters of a recipe, are bytes: C turns 256
 *     into 0 before it arrives here, so test a wider number first. (An area or object that is asked about
 *     has 32 bits: there 256 is no area, and not area 0);
 *   - a pointer and its length belong together: so many bytes may be read there, and written if the
 *     pointer is not const. With the length 0 the pointer may be NULL;
 *   - the buffers of one call do not overlap;
 *   - nobody else writes to a buffer during a call (a mapped file that others write to: copy it first).
 *     Apart from that, any number of threads may call.
 *
 * The words. Users and areas are numbered 0 to 31, objects 0 to 63. An area is a panel, a loop or a
 * building; an object is a table that is stored on a panel. Which of them a site has is said by its lists:
 * a number is listed or not. A user owns areas, an area defines objects, and an area may lie in others.
 * An object moves one step outward, from an area that exports it to an area that this one lies in; or one
 * step inward, from an area to one that lies in it and imports the object. An area has access to an object
 * if it defines it, or if a chain of at most 8 steps leads there from the area that does; then it sees the
 * object. It lends an object by exporting it, and borrows one by importing it. Areas may lie in each other
 * in a ring, or in themselves. An area may export what it defines, but not import it.
 * A state is sound if whatever it names is listed, each listed user owns an area, each listed area has an
 * owner, each listed object is defined in exactly one area, there is an area, each area has access to what
 * it imports or exports, and no area imports what it defines. From a sound state every instruction and every
 * recipe leads to a sound one.
 *
 * The library does not know who calls it: that the activator is who he says is your program's business.
 */
#ifndef PANELRIGHTS_H
#define PANELRIGHTS_H

#include <stddef.h>
#include <stdint.h>

#ifdef __cplusplus
extern "C" {
#endif

enum {
    PANELRIGHTS_USERS = 32,
    PANELRIGHTS_AREAS = 32,
    PANELRIGHTS_OBJECTS = 64,
    PANELRIGHTS_MOST_STEPS = 8,         /* an object may be lent across at most so many steps */
    PANELRIGHTS_STATE_BYTES = 1040,     /* what panelrights_state_bytes() gives, for an array's length */
    PANELRIGHTS_RECIPE_ENTRY_BYTES = 5, /* how many bytes each instruction of a recipe has */
    PANELRIGHTS_RECIPE_MOST = 16,       /* how many instructions a recipe may have */
    PANELRIGHTS_FILE_MOST = 13340,      /* how many bytes a site file has at most, in this version */
    PANELRIGHTS_LABEL_ENTRY_BYTES = 32, /* how many bytes each entry of a label block has */
    PANELRIGHTS_LABEL_TEXT_MOST = 30,   /* how many bytes the text of a label has at most */
    PANELRIGHTS_EXPLAIN_BYTES = 32      /* how many bytes the buffer of panelrights_explain must have at least */
};

/*
 * The record of a state: 1,040 bytes, and as many for each copy that is kept for undo (8,320 before version 3).
 * It has rows of 32 bits, each of four bytes, the low byte first: bit n of a row is bit n % 8, from the lowest,
 * of its byte n / 8. A bit is 1 where a number is listed or a pair is there, and 0 where not.
 *
 *   from byte  bytes  row          bit          is 1 where
 *           0      4  0            user         the user is listed
 *           4      4  0            area         the area is listed
 *           8      8  object / 32  object % 32  the object is listed
 *          16    128  user         area         the user owns the area
 *         144    256  object       area         the object is defined in the area
 *         400    128  inner        outer        the inner area lies in the outer
 *         528    256  object       area         the area imports the object
 *         784    256  object       area         the area exports the object
 *
 * So user 3 owns area 10 where bit 2 of byte 16 + 3 * 4 + 1 is 1.
 *
 * Any 1,040 bytes are a record, of a sound state or of another; bytes of any other length are none. Equal
 * states have equal records and different states different ones, so records may be copied and compared as
 * bytes.
 *
 * A program for version 2 that reads records by the macros below is compiled again and not changed. Where it
 * reads or writes bytes of them by hand, what was byte p is now bit p % 8 of byte p / 8: state[p] == 1 becomes
 * (state[p / 8] >> p % 8 & 1) == 1, and state[p] = 1 becomes state[p / 8] |= 1 << p % 8. A record that version
 * 2 wrote has another length, and is refused.
 *
 * A record is for the memory of one program: a later version of the library may have another length and
 * another layout (compare panelrights_state_bytes() with PANELRIGHTS_STATE_BYTES once, at the start). On disk,
 * and between programs, keep site files (panelrights_write_file). A record has no seal: whoever can write to
 * it can make any other state of it.
 *
 * These read a record, of which all bytes must be there: 1 if the number is listed or the pair is there,
 * else 0, also for a number out of range. They may evaluate an argument more than once. A pair is written as
 * in the table: the row first, then the bit.
 */
#define PANELRIGHTS_HAS_USER(state, user) PANELRIGHTS_LISTED_(state, 0, PANELRIGHTS_USERS, user)
#define PANELRIGHTS_HAS_AREA(state, area) PANELRIGHTS_LISTED_(state, 4, PANELRIGHTS_AREAS, area)
#define PANELRIGHTS_HAS_OBJECT(state, object) PANELRIGHTS_LISTED_(state, 8, PANELRIGHTS_OBJECTS, object)
#define PANELRIGHTS_OWNS(state, user, area) PANELRIGHTS_PAIR_(state, 16, PANELRIGHTS_USERS, user, area)
#define PANELRIGHTS_DEFINED_IN(state, object, area) \
    PANELRIGHTS_PAIR_(state, 144, PANELRIGHTS_OBJECTS, object, area)
#define PANELRIGHTS_LIES_IN(state, inner, outer) \
    PANELRIGHTS_PAIR_(state, 400, PANELRIGHTS_AREAS, inner, outer)
#define PANELRIGHTS_IMPORTED_BY(state, object, area) \
    PANELRIGHTS_PAIR_(state, 528, PANELRIGHTS_OBJECTS, object, area)
#define PANELRIGHTS_EXPORTED_BY(state, object, area) \
    PANELRIGHTS_PAIR_(state, 784, PANELRIGHTS_OBJECTS, object, area)

/* For the macros above only. */
#define PANELRIGHTS_LISTED_(state, start, limit, number) \
    ((size_t)(number) < (size_t)(limit) && PANELRIGHTS_BIT_(state, (size_t)(start), (size_t)(number)))
#define PANELRIGHTS_PAIR_(state, start, limit, first, area)                    \
    ((size_t)(first) < (size_t)(limit) && (size_t)(area) < PANELRIGHTS_AREAS && \
     PANELRIGHTS_BIT_(state, (size_t)(start) + (size_t)(first) * 4, (size_t)(area)))
#define PANELRIGHTS_BIT_(state, row, bit) ((state)[(row) + (bit) / 8] >> (bit) % 8 & 1)

/* The codes of instructions. `a` is an area in all; what `b` is stands behind each. */
enum panelrights_code {
    PANELRIGHTS_LIST_AREA = 1,         /* list new area a, owned by the activator; b is 0 */
    PANELRIGHTS_UNLIST_AREA = 2,       /* unlist area a, and the activator if he then owns none; b is 0 */
    PANELRIGHTS_ADD_OWNER = 3,         /* user b becomes an owner of area a, and is listed if he was not */
    PANELRIGHTS_REMOVE_OWNER = 4,      /* user b no longer owns area a; he is unlisted if he then owns none.
                                          Any owner of a may do so, also with himself */
    PANELRIGHTS_ADD_STRUCTURE = 5,     /* area a lies in area b */
    PANELRIGHTS_REMOVE_STRUCTURE = 6,  /* area a no longer lies in area b */
    PANELRIGHTS_DEFINE = 7,            /* object b is listed, and defined in area a */
    PANELRIGHTS_REMOVE_DEFINITION = 8, /* object b, defined in area a, is unlisted */
    PANELRIGHTS_ADD_IMPORT = 9,        /* area a imports object b, which another area defines */
    PANELRIGHTS_REMOVE_IMPORT = 10,    /* area a no longer imports object b */
    PANELRIGHTS_ADD_EXPORT = 11,       /* area a exports object b */
    PANELRIGHTS_REMOVE_EXPORT = 12     /* area a no longer exports object b */
};

/*
 * The refusals. Where more than one applies you get the first in the order of the checks: for an
 * instruction 12, 1 to 7 upwards, 15, 8 to 11 upwards; for a recipe 12, 14, then those of its first
 * instruction that is refused; for the access question 12, 2, 4; for why it is answered so 31, 12, 2, 4; for a
 * site file that is read 31, then the lowest number; for one that is written 12, 30, 31.
 * A later version may have more numbers: keep a default case.
 *
 * An instruction can be refused as 12, 1, 2 or 3, and besides by its code as
 *   1: 6           2: 4 5 8 9     3: 4 5 6           4: 4 5 7 8     5: 4 5 6       6: 4 5 7 11
 *   7: 4 5 6       8: 4 5 7 11    9: 4 5 6 15 10     11: 4 5 6 10   10 and 12: 4 5 7 11
 */
enum panelrights_refusal {
    PANELRIGHTS_OK = 0, /* accepted */

    PANELRIGHTS_UNKNOWN_CODE = 1,       /* the code is 0 or above 12 */
    PANELRIGHTS_OUT_OF_RANGE = 2,       /* a number above its limit, or b not 0 for codes 1 and 2 */
    PANELRIGHTS_ACTIVATOR_UNLISTED = 3, /* the activator is not listed */
    PANELRIGHTS_NOT_LISTED = 4,         /* area a (codes 2 to 12) or b (4 to 6, 8 to 12) is not listed */
    PANELRIGHTS_NOT_OWNER = 5,          /* the activator does not own area a (codes 2 to 12); for code 5 he must
                                           own both areas, for code 6 one of them is enough */
    PANELRIGHTS_ALREADY_THERE = 6,      /* an add of what is there; code 7: b is listed, here or elsewhere */
    PANELRIGHTS_NOT_THERE = 7,          /* a remove of a pair that is not there */
    PANELRIGHTS_LAST_ONE = 8,           /* code 4: b is the sole owner of a; code 2: a is the only listed area */
    PANELRIGHTS_AREA_IN_USE = 9,        /* code 2: a has another owner or an object, lies in an area or has one
                                           in it, or imports or exports an object */
    PANELRIGHTS_WOULD_LACK_ACCESS = 10, /* even with the new import or export the area lacks access */
    PANELRIGHTS_WOULD_LOSE_ACCESS = 11, /* an area would lack access to what it imports or exports; code 8: so
                                           long as another area imports b, or any area at all exports it */
    PANELRIGHTS_UNSOUND_STATE = 12,     /* a record of another length, or of a state that is not sound */
    PANELRIGHTS_RECIPE_FORM = 14,       /* the bytes are no recipe: a length that is not a multiple of 5 from 5 to
                                           80, a kind above 1, or a value above 3 where the kind is 1 */
    PANELRIGHTS_OWN_IMPORT = 15,        /* code 9: area a defines b itself, so it has nobody to borrow it from */

    PANELRIGHTS_FILE_TOO_SHORT = 21,    /* under 28 bytes */
    PANELRIGHTS_FILE_VERSION = 22,      /* the version is not 1 */
    PANELRIGHTS_FILE_LENGTH = 23,       /* the stated length is not that of the bytes given */
    PANELRIGHTS_FILE_COUNT = 24,        /* a count above its limit */
    PANELRIGHTS_FILE_OFFSET = 25,       /* a table, or the end, stands elsewhere than it should */
    PANELRIGHTS_FILE_RANGE = 26,        /* a number, length, text byte or filler byte outside its range */
    PANELRIGHTS_FILE_ORDER = 27,        /* a table that is not strictly ascending */
    PANELRIGHTS_FILE_LISTS = 28,        /* no owner pair; something unlisted named; an object defined twice */
    PANELRIGHTS_FILE_LACKS_ACCESS = 29, /* an import or export pair whose area lacks access, or an import pair
                                           whose area defines the object */

    PANELRIGHTS_LABEL_BLOCK = 30,       /* panelrights_write_file: the label block has a partial entry; or an entry
                                           with a number, length, text byte or filler byte outside its range, or
                                           with an area that is not listed; or its areas do not strictly ascend */

    /* panelrights_founding, panelrights_read_file: the state buffer has another length than a record. (A
       record of another length is 12 where one is read: panelrights_step, panelrights_recipe,
       panelrights_access, panelrights_explain, panelrights_explain_step, panelrights_write_file.)
       panelrights_write_file: the buffer is shorter than the file. panelrights_explain: the buffer has fewer
       than 32 bytes. */
    PANELRIGHTS_BUFFER_LENGTH = 31
};

/* How many bytes the record of a state has: 1,040. */
size_t panelrights_state_bytes(void);

/*
 * Writes the record of the founding state, in which user 0 owns area 0 and there is nothing else.
 * 0; or 31 and no byte written, if state_len is not panelrights_state_bytes().
 */
uint8_t panelrights_founding(uint8_t *state, size_t state_len);

/*
 * Obeys one instruction. 0, and the record is that of the state after it; or the refusal, and no byte is
 * changed. A record of another length is 12.
 *
 * An add (an odd code) that got 0 is taken back by the matching remove: code + 1, with the same activator, a
 * and b. While the record is as the add left it, the remove gets 0, and every byte is then as it was before
 * the add; a user who was listed only by that add is unlisted again. Questions and refused instructions change
 * no byte. Of several adds the last is taken back first. Do not take back an add that was refused: its remove
 * might take out what was there before.
 */
uint8_t panelrights_step(uint8_t *state, size_t state_len, uint8_t code, uint8_t activator, uint8_t a, uint8_t b);

/* The kind of a number in a recipe. */
enum panelrights_recipe_kind {
    PANELRIGHTS_RECIPE_FIXED = 0,    /* the value is the number itself */
    PANELRIGHTS_RECIPE_PARAMETER = 1 /* the value, 0 to 3, says which of p0 to p3 is the number */
};

/*
 * Obeys a recipe, entirely or not at all. A recipe has 1 to 16 instructions of five bytes each: code, kind of a,
 * value of a, kind of b, value of b. So 5 0 2 1 3 is code 5 (ADD_STRUCTURE) with area 2 as a and p3 as b. The
 * activator gives each of them. A parameter that no instruction uses may have any value.
 *
 * 0, and the record is that of the state after the last instruction; or place * 256 + number, and no byte is
 * changed. The number is the refusal of the first instruction that is refused in its turn, in the state that
 * those before it led to, and the place is its own, from 1; those behind it are not looked at. 12 and 14 are the
 * whole recipe's, and their place is 0: 12 comes first, and is what it is for a step; 14 is decided before any
 * instruction is obeyed. No instruction gets either. Keep the answer in 16 bits, and compare refusals with
 * PANELRIGHTS_RECIPE_NUMBER(answer): answer == PANELRIGHTS_NOT_OWNER is never true.
 *
 * For codes 1 and 2, b must be 0: kind 0 and value 0, or a parameter that is 0; else it is refused as 2.
 */
uint16_t panelrights_recipe(uint8_t *state, size_t state_len, const uint8_t *recipe, size_t recipe_len,
                            uint8_t activator, uint8_t p0, uint8_t p1, uint8_t p2, uint8_t p3);

/* The two parts of its answer. */
#define PANELRIGHTS_RECIPE_PLACE(answer) ((uint8_t)((answer) >> 8))
#define PANELRIGHTS_RECIPE_NUMBER(answer) ((uint8_t)((answer)&0xff))

/* What panelrights_access answers for "no access", and what it adds to a refusal. */
enum { PANELRIGHTS_NO_ACCESS = 255, PANELRIGHTS_ACCESS_REFUSED = 256 };

/*
 * In how many steps does the object reach the area? (Here the area comes first.) The number of steps in a
 * shortest chain from the area that defines it: 0 for that area itself, and never above 8: where every
 * chain has more steps there is no access. 255 for no access; 256 + n for refusal n, which is 12, 2 or 4.
 * Any area above 31 and any object above 63 is refusal 2: 256 is no area, and not area 0. Keep the answer in
 * 16 bits: in 8, refusal 4 would read as 4 steps.
 */
uint16_t panelrights_access(const uint8_t *state, size_t state_len, uint32_t area, uint32_t object);

/* What panelrights_explain adds to a refusal, and to the number of bytes where it writes counts. */
enum { PANELRIGHTS_EXPLAIN_REFUSED = 256, PANELRIGHTS_EXPLAIN_COUNTS = 512 };

/*
 * Why does the object reach the area, or why not? Writes into the buffer, from its front on:
 *   - With access, the chain: the numbers of its areas, one a byte. The first is the area that defines the
 *     object, the last is the area asked about, and the object moves one step from each to the next. It is a
 *     shortest chain, and among those the one with the lowest numbers compared from the front. The answer is how
 *     many areas it has, one more than it has steps.
 *   - Without access, the counts: 32 bytes. Byte k is the least number of steps to area k, or 255 if that area
 *     lacks access: so they show how far the object comes. The answer is 512 + 32.
 * Bytes not written keep their content. For refusal r the answer is 256 + r: 31, 12, 2 or 4, in that order, and no
 * byte is written. 31 is for a buffer of fewer than 32 bytes, also where a chain would have fewer; the others are
 * those of panelrights_access. A record of another length is 12. So 1 to 9 is a chain, 256 to 511 a refusal and
 * 512 to 767 are counts: a test for 256 or more alone would take counts for a refusal. Keep the answer in 16 bits.
 * A later version may give answers from 768 on.
 */
uint16_t panelrights_explain(const uint8_t *state, size_t state_len, uint32_t area, uint32_t object, uint8_t *buffer,
                             size_t buffer_len);

/* Which pair panelrights_explain_step names. */
enum panelrights_lost { PANELRIGHTS_LOST_NONE = 0, PANELRIGHTS_LOST_IMPORT = 1, PANELRIGHTS_LOST_EXPORT = 2 };

/*
 * Why is the instruction refused? The number that panelrights_step would give, 0 for one that it would accept;
 * and for 11 the first pair, in the state that the removal would give, whose area would lack access: imports
 * before exports, then by object, then by area. No byte is changed.
 *
 * number + 256 * lost + 65536 * object + 16777216 * area. What is lost is 1 for an import pair and 2 for an export
 * pair, which come with 11; with any other number lost, object and area are 0. (A pair may be of object 0 and area 0:
 * ask what is lost.) Keep the answer in 32 bits, and compare refusals with PANELRIGHTS_REASON_NUMBER(answer): answer
 * == PANELRIGHTS_WOULD_LOSE_ACCESS is never true. A record of another length is 12.
 */
uint32_t panelrights_explain_step(const uint8_t *state, size_t state_len, uint8_t code, uint8_t activator, uint8_t a,
                                  uint8_t b);

/* The four parts of its answer. */
#define PANELRIGHTS_REASON_NUMBER(answer) ((uint8_t)((answer)&0xff))
#define PANELRIGHTS_REASON_LOST(answer) ((uint8_t)((answer) >> 8 & 0xff))
#define PANELRIGHTS_REASON_OBJECT(answer) ((uint8_t)((answer) >> 16 & 0xff))
#define PANELRIGHTS_REASON_AREA(answer) ((uint8_t)((answer) >> 24))

/*
 * Reads a site file. 0, and the record is that of the file's state; or the refusal, 21 to 29, and the
 * record is that of the founding state: what was in the buffer is gone, so read into a second one if you
 * need it. 31 and no byte written, whatever the file has, if state_len is not panelrights_state_bytes().
 * No accepted file is longer than PANELRIGHTS_FILE_MOST bytes. A file that an earlier version of the library
 * accepted is 29 now if an import or export in it needs more than 8 steps (from 2.1.0 on), or if an area in it
 * imports what it defines (from 2.2.0 on); nobody's access rests on such an import, so it can be taken out
 * alone.
 */
uint8_t panelrights_read_file(const uint8_t *file, size_t file_len, uint8_t *state, size_t state_len);

/*
 * Where the text of the area's label stands in the file: offset * 65536 + length. 0 if there is none: the
 * file is refused, or the area has no label (any number above 31 too: 256 is not area 0). The text has 1 to
 * 30 bytes, each 32 to 126, and no byte 0 behind it that you may rely on. Labels are the file's and not the
 * state's: keep its bytes for them, and show no label where a step has changed what the area is. Each call
 * checks the whole file.
 */
uint32_t panelrights_label(const uint8_t *file, size_t file_len, uint32_t area);

/*
 * Where the label block of the file stands: offset * 65536 + length. 0 if the file is refused: test for it, or
 * the labels are lost when you write. A file without labels has a block of length 0, and the answer is not 0.
 * The block is what panelrights_write_file takes. Each call checks the whole file.
 */
uint32_t panelrights_labels(const uint8_t *file, size_t file_len);

/* The two parts of the answer of panelrights_label or panelrights_labels. */
#define PANELRIGHTS_LABEL_OFFSET(label) ((size_t)((label) >> 16))
#define PANELRIGHTS_LABEL_LENGTH(label) ((size_t)((label)&0xffff))

/* What panelrights_write_file adds to a refusal. */
enum { PANELRIGHTS_WRITE_REFUSED = 65536 };

/*
 * Writes the site file of a state and its labels into the buffer, from its front on. The length of the file,
 * and bytes past the length keep their content; or 65536 + n for refusal n, which is 12, 30 or 31, and no byte
 * is changed. Keep the answer in 32 bits, and compare refusals with answer - PANELRIGHTS_WRITE_REFUSED: an
 * answer of 30 is a length, that of the founding state's file. A buffer of just the file's length will do, and
 * one of PANELRIGHTS_FILE_MOST bytes always does. A record of another length is 12.
 *
 * A label block has an entry of 32 bytes for each labelled area, in ascending order of the areas: the area,
 * the length of the text (1 to 30), the text (bytes 32 to 126), then zeros. So 4, 4, 'H', 'a', 'l', 'l' and 26
 * zeros are the label Hall of area 4. labels_len is 32 times the number of entries, and 0 for none. Each
 * labelled area must be listed, else the block is refused as 30. Leave the entry of an area out once it is
 * unlisted: if its number is listed again, the old text would be the new area's.
 *
 * What was written is read again, as the same record and the same label block: file_len is then the answer,
 * and not the buffer's length. An accepted file is written again from its record and its label block, byte for
 * byte. So to change a file that was read, keep its label block, obey instructions, take out the entries of
 * areas that were unlisted, and write. The block may be a part of the file that was read: then write into
 * another buffer, since the two must not overlap. On disk, write a new file and put it in the old one's place
 * once it is whole: what fails on the way then leaves the old one as it was.
 */
uint32_t panelrights_write_file(const uint8_t *state, size_t state_len, const uint8_t *labels, size_t labels_len,
                                uint8_t *file, size_t file_len);

/*
 * For a program's own list of areas, eight marks in a byte, the lowest number in the lowest bit: the place
 * (0 to 7) of the lowest mark set, 8 if none.
 */
uint8_t panelrights_lowest_mark(uint8_t marks);

#ifdef __cplusplus
}
#endif

#endif
