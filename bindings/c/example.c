/* The store from C: a rewrite loses its power half way, and the acknowledged contents stand. Then a move to another
 * chip, what can be salvaged once that one is damaged, the store mounted, and one of two tenants on it. At the end the
 * settings of a board with the older partition format, which are no store's.
 *
 *     tools/build qanbillox                                        (at the root of the repository)
 *     cc -Wall -Wextra -Werror -Iinclude bindings/c/example.c target/staticlib/libqanbillox.a -o target/example
 *     target/example
 */
#include "qanbillox.h"

#include <stdio.h>
#include <string.h>

/* The smallest chip: two segments of two slots, which hold one block. */
enum { SEGMENTS = 2, SLOTS = 2, BLOCK = 7 };

static uint8_t image[SEGMENTS * (SLOTS + 1) * QBX_PAGE];

static const uint64_t unlimited = UINT64_MAX;

/* Says what a writing request gave; returns 0 if that is what was expected. */
static int told(const char *request, uint64_t result, enum qbx_answer answer, uint64_t steps)
{
    printf("%-28s answer %d, %llu steps\n", request, (int)qbx_answer_of(result),
           (unsigned long long)qbx_steps_of(result));
    return qbx_answer_of(result) != answer || qbx_steps_of(result) != steps;
}

static uint64_t put(const char *contents, uint64_t budget)
{
    return qbx_put(image, sizeof image, SEGMENTS, SLOTS, BLOCK, (const uint8_t *)contents, strlen(contents), budget);
}

static uint64_t block_read(void) { return qbx_read(image, sizeof image, SEGMENTS, SLOTS, BLOCK); }

/* Says what a read of this chip shows; returns 0 if those are the contents. */
static int chip_shows(const char *request, const uint8_t *chip, uint64_t result, const char *contents)
{
    const uint8_t *found = chip + qbx_offset_of(result);
    size_t length = qbx_length_of(result);

    printf("%-28s answer %d, '%.*s'\n", request, (int)qbx_answer_of(result), (int)length, (const char *)found);
    return qbx_answer_of(result) != QBX_DONE || length != strlen(contents) || memcmp(found, contents, length) != 0;
}

static int shows(const char *request, uint64_t result, const char *contents)
{
    return chip_shows(request, image, result, contents);
}

/* Prints the account of the image; returns 0 if this is its last line. */
static int account(const char *last)
{
    static uint8_t text[512]; /* qbx_account_length(SEGMENTS, SLOTS) is less */
    uint64_t result = qbx_account(image, sizeof image, SEGMENTS, SLOTS, text, sizeof text);
    size_t length = qbx_text_length_of(result), whole = strlen(last);

    printf("the account:\n%.*s", (int)length, (const char *)text);
    return qbx_answer_of(result) != QBX_DONE || length < whole || memcmp(text + length - whole, last, whole) != 0;
}

/* Says what the blank test tells of the last segment; returns 0 if that is what was expected. */
static int blank(int all, uint64_t groups)
{
    uint64_t result = qbx_is_blank(image + sizeof image / SEGMENTS, sizeof image / SEGMENTS);

    printf("%-28s %s, groups looked at: %llu\n", "the last segment is blank", qbx_blank_of(result) ? "yes" : "no",
           (unsigned long long)qbx_groups_of(result));
    return qbx_blank_of(result) != all || qbx_groups_of(result) != groups;
}

/* Makes the header in use, that of the last segment, one of version 1, as former stores wrote it. */
static void make_version_1(void)
{
    uint8_t *header = image + sizeof image / SEGMENTS;

    header[3] = 1;
    memset(header + 17, 255, QBX_PAGE - 17);
}

/* The new board's chip: three segments of three slots, which hold five blocks. */
enum { NEW_SEGMENTS = 3, NEW_SLOTS = 3, NEW_BLOCK = 8 };

static uint8_t target[NEW_SEGMENTS * (NEW_SLOTS + 1) * QBX_PAGE];

static uint64_t move_there(uint64_t budget)
{
    return qbx_move(image, sizeof image, SEGMENTS, SLOTS, target, sizeof target, NEW_SEGMENTS, NEW_SLOTS, budget);
}

static uint64_t move_back(void)
{
    return qbx_move(target, sizeof target, NEW_SEGMENTS, NEW_SLOTS, image, sizeof image, SEGMENTS, SLOTS, unlimited);
}

static uint64_t new_put(const char *contents)
{
    return qbx_put(target, sizeof target, NEW_SEGMENTS, NEW_SLOTS, NEW_BLOCK, (const uint8_t *)contents,
                   strlen(contents), unlimited);
}

static uint64_t new_read(void) { return qbx_read(target, sizeof target, NEW_SEGMENTS, NEW_SLOTS, BLOCK); }

/* The store of version 1 is moved to the new chip, and goes on there; a move that was cut is begun again. With a second
 * block it is too much for the old chip. Returns 0 if all is as expected. */
static int moved(void)
{
    int wrong = 0;

    wrong += told("move, cut after 25 steps", move_there(25), QBX_CUT, 25);
    wrong += told("move", move_there(unlimited), QBX_DONE, 30);
    wrong += chip_shows("read on the new chip", target, new_read(), "C");
    wrong += told("put there", new_put("E"), QBX_DONE, 6);
    wrong += told("move back", move_back(), QBX_FULL, 0);
    return wrong;
}

/* A third chip of the new board's geometry, for what is salvaged. */
static uint8_t saved[sizeof target];

/* Prints what is found in the new chip; returns 0 if the text is this. */
static int salvage(const char *expected)
{
    static uint8_t text[512]; /* qbx_salvage_length(NEW_SEGMENTS, NEW_SLOTS) is less */
    uint64_t result = qbx_salvage(target, sizeof target, NEW_SEGMENTS, NEW_SLOTS, text, sizeof text);
    size_t length = qbx_text_length_of(result);

    printf("the salvage:\n%.*s", (int)length, (const char *)text);
    return qbx_answer_of(result) != QBX_DONE || length != strlen(expected) || memcmp(text, expected, length) != 0;
}

static uint64_t rebuild(uint64_t budget)
{
    return qbx_rebuild(target, sizeof target, NEW_SEGMENTS, NEW_SLOTS, saved, sizeof saved, NEW_SEGMENTS, NEW_SLOTS,
                       budget);
}

static uint64_t saved_read(void) { return qbx_read(saved, sizeof saved, NEW_SEGMENTS, NEW_SLOTS, BLOCK); }

/* The new chip is written on, and then a fault makes a slot that was replaced look live again: nothing but a salvage
 * reads it now. Returns 0 if all is as expected. */
static int salvaged(void)
{
    int wrong = 0;

    wrong += told("move again", move_there(unlimited), QBX_DONE, 30);
    wrong += told("put there", qbx_put(target, sizeof target, NEW_SEGMENTS, NEW_SLOTS, BLOCK, (const uint8_t *)"F", 1,
                                       unlimited), QBX_DONE, 7);
    wrong += told("put there", new_put("G"), QBX_DONE, 6);
    target[QBX_PAGE] |= 0x20;
    wrong += told("recover, damaged", qbx_recover(target, sizeof target, NEW_SEGMENTS, NEW_SLOTS, unlimited),
                  QBX_DAMAGED, 0);
    wrong += salvage("salvage promises nothing\n"
                     "block 7 len 1 seg 0 slot 2 differs\n"
                     "block 8 len 1 seg 0 slot 3 same\n");
    wrong += told("rebuild, cut", rebuild(29), QBX_CUT, 29);
    wrong += told("rebuild", rebuild(unlimited), QBX_DONE, 36);
    wrong += chip_shows("read what was saved", saved, saved_read(), "F");
    return wrong;
}

/* The table of places, which is lent to the mounted form. */
static uint32_t places[QBX_PLACES];

static uint64_t mount_store(void) { return qbx_mount(image, sizeof image, SEGMENTS, SLOTS, places, QBX_PLACES); }

static uint64_t mounted_put(const char *contents, uint64_t budget)
{
    return qbx_mounted_put(image, sizeof image, SEGMENTS, SLOTS, places, QBX_PLACES, BLOCK, (const uint8_t *)contents,
                           strlen(contents), budget);
}

static uint64_t mounted_read(void)
{
    return qbx_mounted_read(image, sizeof image, SEGMENTS, SLOTS, places, QBX_PLACES, BLOCK);
}

/* A mounted store, from a format on; after a cut it is recovered and mounted again. Returns 0 if all is as expected. */
static int mounted(void)
{
    int wrong = 0;

    wrong += told("format", qbx_format(image, sizeof image, SEGMENTS, SLOTS, unlimited), QBX_DONE, 23);
    wrong += told("mount", mount_store(), QBX_DONE, 0);
    wrong += told("mounted put", mounted_put("A", unlimited), QBX_DONE, 6);
    wrong += told("mounted put again", mounted_put("B", unlimited), QBX_DONE, 7);
    wrong += told("mounted put, compacting", mounted_put("C", unlimited), QBX_DONE, 37);
    wrong += shows("mounted read", mounted_read(), "C");
    wrong += told("mounted put, cut", mounted_put("D", 28), QBX_CUT, 28);
    wrong += told("the table is unusable", mounted_put("D", unlimited), QBX_UNFINISHED, 0);
    wrong += told("recover", qbx_recover(image, sizeof image, SEGMENTS, SLOTS, unlimited), QBX_DONE, 3);
    wrong += told("mount", mount_store(), QBX_DONE, 0);
    wrong += shows("mounted read", mounted_read(), "C");
    return wrong;
}

/* The new chip shared by two tenants: blocks 1 to 9 and two of them, blocks 10 to 19 and three. */
static const uint32_t shares[] = {1, 9, 2, 10, 19, 3};

enum { NUMBERS = sizeof shares / sizeof shares[0] };

static uint64_t put_by(uint32_t tenant, uint16_t block, const char *contents)
{
    return qbx_share_put(target, sizeof target, NEW_SEGMENTS, NEW_SLOTS, shares, NUMBERS, tenant, block,
                         (const uint8_t *)contents, strlen(contents));
}

static uint64_t delete_by(uint32_t tenant, uint16_t block)
{
    return qbx_share_delete(target, sizeof target, NEW_SEGMENTS, NEW_SLOTS, shares, NUMBERS, tenant, block);
}

/* Says what a tenant reads; returns 0 if it gets this answer and these contents. */
static int read_by(uint32_t tenant, uint16_t block, enum qbx_answer answer, const char *contents)
{
    uint8_t lent[QBX_MOST_CONTENTS];
    uint64_t result = qbx_share_read(target, sizeof target, NEW_SEGMENTS, NEW_SLOTS, shares, NUMBERS, tenant, block,
                                     lent, sizeof lent);
    size_t length = qbx_text_length_of(result);

    printf("%-28s answer %d, '%.*s'\n", "read by tenant", (int)qbx_answer_of(result), (int)length, (const char *)lent);
    return qbx_answer_of(result) != answer || length != strlen(contents) || memcmp(lent, contents, length) != 0;
}

/* Says what a tenant's request answered, which tells no steps; returns 0 if that is what was expected. */
static int answered(const char *request, uint64_t result, enum qbx_answer answer)
{
    printf("%-28s answer %d\n", request, (int)result);
    return result != (uint64_t)answer;
}

/* Each has its own blocks and its own quota. Returns 0 if all is as expected. */
static int shared(void)
{
    int wrong = 0;

    wrong += told("format", qbx_format(target, sizeof target, NEW_SEGMENTS, NEW_SLOTS, unlimited), QBX_DONE, 24);
    wrong += answered("put by tenant 1", put_by(1, 7, "H"), QBX_DONE);
    wrong += answered("put by tenant 1", put_by(1, 8, "I"), QBX_DONE);
    wrong += answered("its quota is used", put_by(1, 9, "J"), QBX_FULL);
    wrong += answered("a rewrite", put_by(1, 8, "K"), QBX_DONE);
    wrong += answered("a foreign block", put_by(2, 7, "L"), QBX_FOREIGN);
    wrong += answered("no such tenant", put_by(0, 7, "L"), QBX_FOREIGN);
    wrong += answered("put by tenant 2", put_by(2, 10, "M"), QBX_DONE);
    wrong += read_by(2, 8, QBX_FOREIGN, "");
    wrong += read_by(1, 8, QBX_DONE, "K");
    wrong += answered("delete by tenant 1", delete_by(1, 8), QBX_DONE);
    wrong += read_by(1, 8, QBX_ABSENT, "");
    return wrong;
}

/* A board with the older partition format: two partitions of eight bytes. Item 1 has two bytes, and item 7 one. */
enum { PARTITIONS = 2 };

static const uint8_t layout[] = {1, 2, 7, 1};
static uint8_t board[PARTITIONS * 8];

static uint64_t set(uint8_t item, const char *data, uint64_t budget)
{
    return qbx_settings_write(board, sizeof board, PARTITIONS, layout, sizeof layout, item, (const uint8_t *)data,
                              strlen(data), budget);
}

/* Says what a write of settings gave; returns 0 if that is what was expected. */
static int set_told(const char *request, uint64_t result, enum qbx_settings_answer answer, uint64_t steps)
{
    printf("%-28s answer %d, %llu steps\n", request, (int)qbx_settings_answer_of(result),
           (unsigned long long)qbx_steps_of(result));
    return qbx_settings_answer_of(result) != answer || qbx_steps_of(result) != steps;
}

/* Says what an item reads; returns 0 if it is this answer and this data. */
static int setting(uint8_t item, enum qbx_settings_answer answer, const char *data)
{
    uint64_t result = qbx_settings_read(board, sizeof board, PARTITIONS, layout, sizeof layout, item);
    const uint8_t *found = board + qbx_offset_of(result);
    size_t length = qbx_length_of(result);

    printf("%-28s answer %d, '%.*s'\n", "read a setting", (int)qbx_settings_answer_of(result), (int)length,
           (const char *)found);
    return qbx_settings_answer_of(result) != answer || length != strlen(data) || memcmp(found, data, length) != 0;
}

/* Settings, from an erased chip on. After a cut there is nothing to recover: the write is begun again. Returns 0 if all
 * is as expected. */
static int settings(void)
{
    int wrong = 0;

    memset(board, 255, sizeof board);
    wrong += setting(1, QBX_SETTINGS_UNWRITTEN, "");
    wrong += set_told("the first setting", set(1, "A1", unlimited), QBX_SETTINGS_DONE, 5);
    wrong += set_told("another, in place", set(7, "x", unlimited), QBX_SETTINGS_DONE, 2);
    wrong += setting(1, QBX_SETTINGS_DONE, "A1");
    wrong += set_told("the first anew, cut", set(1, "B2", 6), QBX_SETTINGS_CUT, 6);
    wrong += setting(1, QBX_SETTINGS_DONE, "A1");
    wrong += set_told("the first anew", set(1, "B2", unlimited), QBX_SETTINGS_DONE, 7);
    wrong += setting(1, QBX_SETTINGS_DONE, "B2");
    wrong += setting(7, QBX_SETTINGS_DONE, "x");
    wrong += set_told("data of another length", set(7, "xy", unlimited), QBX_SETTINGS_MISMATCH, 0);
    board[0] = 3; /* and the other partition has status 1: these are no run */
    wrong += setting(7, QBX_SETTINGS_STATUSES, "");
    return wrong;
}

int main(void)
{
    int wrong = 0;

    wrong += told("format", qbx_format(image, sizeof image, SEGMENTS, SLOTS, unlimited), QBX_DONE, 23);
    wrong += blank(1, 96);
    wrong += told("put", put("A", unlimited), QBX_DONE, 6);
    wrong += told("put again", put("B", unlimited), QBX_DONE, 7);
    wrong += told("put, cut after 28 steps", put("C", 28), QBX_CUT, 28);
    wrong += account("recover 0 steps 3\n");
    wrong += told("recover", qbx_recover(image, sizeof image, SEGMENTS, SLOTS, unlimited), QBX_DONE, 3);
    wrong += shows("read", block_read(), "B");
    wrong += told("put", put("C", unlimited), QBX_DONE, 7);
    wrong += shows("read", block_read(), "C");
    wrong += told("put of nothing", put("", unlimited), QBX_LENGTH, 0);
    wrong += shows("read", block_read(), "C");
    wrong += blank(0, 1);
    make_version_1();
    wrong += told("put on version 1", put("D", unlimited), QBX_FORMER_VERSION, 0);
    wrong += shows("read", block_read(), "C");
    wrong += told("an image that is too short", qbx_format(image, sizeof image - 1, SEGMENTS, SLOTS, unlimited), QBX_SIZE, 0);
    wrong += moved();
    wrong += salvaged();
    wrong += mounted();
    wrong += shared();
    wrong += settings();
    return wrong != 0;
}
