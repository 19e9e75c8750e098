/* How much stack does a request take? Each is made on a stack of our own that was painted before, and how far the
 * paint is gone says how deep it went.
 *
 *     tools/build qanbillox                                        (at the root of the repository)
 *     cc -O2 -Wall -Wextra -Werror -Iinclude bench/stack.c target/staticlib/libqanbillox.a -o target/stack
 *     target/stack [BYTES ACCOUNT MOVE SALVAGE REBUILD]
 *
 * It prints the most bytes that each request took on any of the chips below; with the five numbers it ends with 1 if
 * one took more than BYTES, or the account, the move, the salvage and the rebuild, which have large tables of their
 * own, more than ACCOUNT, MOVE, SALVAGE and REBUILD. The table of mounted requests is lent, and not on the stack.
 * Counted is all that the call of a request puts there, down to the deepest byte written: the arguments that find no
 * register, its frames, and those of memcpy and memset. Not counted is what an empty call puts there too, the return
 * address. The images are made by the library's own requests, with budgets for cuts. Settings in the older partition
 * format are requests here too, on boards of their own. */
#define _XOPEN_SOURCE 700
#include "qanbillox.h"

#include <stdio.h>
#include <stdlib.h>
#include <string.h>
#include <ucontext.h>

enum { STACK = 1024 * 1024, PAINT = 0xA5, LONGEST = 255 * 256 * 256, LONGEST_TEXT = 25 + 42 * 255 * 255 };

/* Every slot of a full ring is written first. On the largest chip that takes half a minute, and changes no figure. */
static const struct {
    size_t n, b;
    int full_ring;
} chips[] = {{2, 2, 1}, {16, 255, 1}, {255, 2, 1}, {255, 255, 0}};

/* The chip at hand. Requests work on image; base and cut are what they begin with. */
static size_t n, b, length;
static uint8_t image[LONGEST], base[LONGEST], cut[LONGEST];

/* What an account, a salvage, a move and a rebuild are written to, and the table that is lent to mounted calls. */
static uint8_t text[LONGEST_TEXT], target[LONGEST];
static uint32_t places[QBX_PLACES];

/* Forty tenants, the first of whom has all the blocks that are stored here. */
enum { NUMBERS = 3 * QBX_MOST_TENANTS };
static uint32_t shares[NUMBERS];

/* Boards with the older partition format: a few items and the most, in the fewest partitions and in the most. The last
 * item is the one that is written and read. */
static const struct {
    size_t partitions, items;
    uint8_t length;
} boards[] = {{2, 1, 1}, {8, 20, 16}, {128, 20, 16}, {2, 255, 255}, {128, 255, 255}};
static uint8_t layout[2 * 255], item, setting[255];
static size_t partitions, layout_length;

/* The block that the requests are about, and what is put: once there is room, that takes SLOT steps for a block that
 * is stored already. */
enum { BLOCK = 1, OTHER = 2, SLOT = 5 + QBX_MOST_CONTENTS + 1 };
static const uint8_t contents[QBX_MOST_CONTENTS];

static struct {
    const char *name;
    size_t bytes;
} rows[] = {{"format", 0},                   {"put, with room", 0},           {"put, opening a segment", 0},
            {"put, compacting first", 0},    {"read", 0},                     {"delete", 0},
            {"recover, nothing to do", 0},   {"recover (a)", 0},              {"recover (b)", 0},
            {"recover (c)", 0},              {"recover (d)", 0},              {"blank test", 0},
            {"mount", 0},                    {"mounted put, with room", 0},   {"mounted put, opening", 0},
            {"mounted put, compacting", 0},  {"mounted read", 0},             {"mounted delete", 0},
            {"put by tenant", 0},            {"read by tenant", 0},           {"delete by tenant", 0},
            {"settings, first write", 0},    {"settings, in place", 0},       {"settings, to the next", 0},
            {"settings, read", 0},
            {"account", 0},                  {"move", 0},                     {"salvage", 0},
            {"rebuild", 0}};
/* Those with large tables are the last rows, and each has its own limit. */
enum { ROWS = sizeof rows / sizeof rows[0], LARGE = 4, REQUESTS = ROWS - LARGE };

static void stop(const char *what)
{
    fprintf(stderr, "stack: not as expected: %s, n = %zu, b = %zu, partitions = %zu\n", what, n, b, partitions);
    exit(2);
}

/* ---- One request on the painted stack ---- */

enum request {
    NOTHING,
    FORMAT,
    PUT,
    READ,
    DELETE,
    RECOVER,
    BLANK,
    ACCOUNT,
    MOVE,
    SALVAGE,
    REBUILD,
    SHARE_PUT,
    SHARE_READ,
    SHARE_DELETE,
    SETTINGS_WRITE,
    SETTINGS_READ,
    MOUNT,
    MOUNTED_PUT,
    MOUNTED_READ,
    MOUNTED_DELETE
};

static enum request request;
static uint64_t result;
static ucontext_t caller, painted;

static uint64_t nothing(void) { return 0; }
static uint64_t (*volatile empty_call)(void) = nothing;

static size_t setting_length(void) { return layout[layout_length - 1]; }

static void make_request(void)
{
    switch (request) {
    case NOTHING: result = empty_call(); break;
    case FORMAT: result = qbx_format(image, length, n, b, UINT64_MAX); break;
    case PUT: result = qbx_put(image, length, n, b, BLOCK, contents, sizeof contents, UINT64_MAX); break;
    case READ: result = qbx_read(image, length, n, b, BLOCK); break;
    case DELETE: result = qbx_delete(image, length, n, b, BLOCK, UINT64_MAX); break;
    case RECOVER: result = qbx_recover(image, length, n, b, UINT64_MAX); break;
    /* the last segment but for three bytes, so that the last group is a shorter one */
    case BLANK: result = qbx_is_blank(image + length - length / n, length / n - 3); break;
    case ACCOUNT: result = qbx_account(image, length, n, b, text, sizeof text); break;
    case MOVE: result = qbx_move(image, length, n, b, target, length, n, b, UINT64_MAX); break;
    case SALVAGE: result = qbx_salvage(image, length, n, b, text, sizeof text); break;
    case REBUILD: result = qbx_rebuild(image, length, n, b, target, length, n, b, UINT64_MAX); break;
    case SHARE_PUT:
        result = qbx_share_put(image, length, n, b, shares, NUMBERS, 1, BLOCK, contents, sizeof contents);
        break;
    case SHARE_READ: result = qbx_share_read(image, length, n, b, shares, NUMBERS, 1, BLOCK, text, sizeof text); break;
    case SHARE_DELETE: result = qbx_share_delete(image, length, n, b, shares, NUMBERS, 1, BLOCK); break;
    case SETTINGS_WRITE:
        result = qbx_settings_write(image, length, partitions, layout, layout_length, item, setting, setting_length(),
                                    UINT64_MAX);
        break;
    case SETTINGS_READ: result = qbx_settings_read(image, length, partitions, layout, layout_length, item); break;
    case MOUNT: result = qbx_mount(image, length, n, b, places, QBX_PLACES); break;
    case MOUNTED_PUT:
        result = qbx_mounted_put(image, length, n, b, places, QBX_PLACES, BLOCK, contents, sizeof contents, UINT64_MAX);
        break;
    case MOUNTED_READ: result = qbx_mounted_read(image, length, n, b, places, QBX_PLACES, BLOCK); break;
    case MOUNTED_DELETE:
        result = qbx_mounted_delete(image, length, n, b, places, QBX_PLACES, BLOCK, UINT64_MAX);
        break;
    }
}

/* The bytes that have lost their paint after this request. */
static size_t depth_of(enum request wanted)
{
    static _Alignas(16) uint8_t stack[STACK];
    size_t painted_still = 0;

    request = wanted;
    memset(stack, PAINT, sizeof stack);
    if (getcontext(&painted) != 0)
        stop("getcontext");
    painted.uc_stack.ss_sp = stack;
    painted.uc_stack.ss_size = sizeof stack;
    painted.uc_link = &caller;
    makecontext(&painted, make_request, 0);
    if (swapcontext(&caller, &painted) != 0)
        stop("swapcontext");
    while (painted_still < sizeof stack && stack[painted_still] == PAINT)
        painted_still++;
    return sizeof stack - painted_still;
}

/* ---- What is measured ---- */

/* A request on a copy of this image. */
static void measure(const char *name, enum request wanted, const uint8_t *before)
{
    size_t empty = depth_of(NOTHING), bytes = 0, row = 0;

    /* Twice: in the first the dynamic linker may look for memcpy and memset, on this stack. */
    for (int turn = 0; turn < 2; turn++) {
        memcpy(image, before, length);
        if (wanted > MOUNT && qbx_mount(image, length, n, b, places, QBX_PLACES) != QBX_DONE)
            stop("mount");
        bytes = depth_of(wanted) - empty;
    }
    if (wanted == BLANK ? !qbx_blank_of(result) : qbx_answer_of(result) != QBX_DONE)
        stop(name);
    while (strcmp(rows[row].name, name) != 0)
        row++;
    if (rows[row].bytes < bytes)
        rows[row].bytes = bytes;
}

static uint64_t put(uint16_t block, uint64_t budget)
{
    return qbx_put(image, length, n, b, block, contents, sizeof contents, budget);
}

/* The recovery of the base image after a put that was cut with so many steps left; it has to take so many. */
static void measure_recovery(const char *name, uint64_t left, uint64_t steps)
{
    uint64_t whole;

    memcpy(image, base, length);
    whole = qbx_steps_of(put(BLOCK, UINT64_MAX));
    memcpy(image, base, length);
    put(BLOCK, whole - left);
    memcpy(cut, image, length);
    measure("account", ACCOUNT, cut);
    measure("salvage", SALVAGE, cut);
    measure("rebuild", REBUILD, cut);
    measure(name, RECOVER, cut);
    if (qbx_steps_of(result) != steps)
        stop(name);
}

/* The base image: a fresh chip with so many slots written, the first by BLOCK and the others, if it holds two blocks,
 * by OTHER. */
static void write_slots(size_t slots)
{
    uint16_t then = qbx_capacity(n, b) > 1 ? OTHER : BLOCK;

    if (qbx_answer_of(qbx_format(image, length, n, b, UINT64_MAX)) != QBX_DONE)
        stop("format");
    for (size_t i = 0; i < slots; i++)
        if (qbx_answer_of(put(i == 0 ? BLOCK : then, UINT64_MAX)) != QBX_DONE)
            stop("put");
    memcpy(base, image, length);
}

/* The base image: a fresh chip with so many blocks. */
static void write_blocks(uint16_t blocks)
{
    if (qbx_answer_of(qbx_format(image, length, n, b, UINT64_MAX)) != QBX_DONE)
        stop("format");
    for (uint16_t block = 1; block <= blocks; block++)
        if (qbx_answer_of(put(block, UINT64_MAX)) != QBX_DONE)
            stop("put");
    memcpy(base, image, length);
}

/* What takes an image in any state: the base image as it is, damaged, and with its first slot once more in the last,
 * with other contents, so that a salvage compares. Those of unfinished ones are in measure_recovery. */
static void measure_any_state(void)
{
    for (int fault = 0; fault < 3; fault++) {
        memcpy(cut, base, length);
        if (fault == 1)
            cut[length - 1] ^= 1;
        if (fault == 2) {
            memcpy(cut + length / n - QBX_PAGE, cut + QBX_PAGE, QBX_PAGE);
            cut[length / n - QBX_PAGE + 8] ^= 1;
            /* live, also where it was replaced */
            cut[QBX_PAGE] |= 0x20;
            cut[length / n - QBX_PAGE] |= 0x20;
        }
        measure("account", ACCOUNT, cut);
        measure("salvage", SALVAGE, cut);
        measure("rebuild", REBUILD, cut);
    }
}

/* The first tenant's range ends where the others' begin, a number each. */
static void share(void)
{
    for (uint32_t i = 0; i < QBX_MOST_TENANTS; i++) {
        shares[3 * i] = i == 0 ? 1 : 60000 + i;
        shares[3 * i + 1] = 60000 + i;
        shares[3 * i + 2] = i == 0 ? (uint32_t)qbx_capacity(n, b) : 0;
    }
}

static void measure_chip(int full_ring)
{
    write_slots(1);
    measure("format", FORMAT, base);
    measure("put, with room", PUT, base);
    measure("read", READ, base);
    measure("delete", DELETE, base);
    measure("recover, nothing to do", RECOVER, base);
    measure_recovery("recover (c)", 2, 1);
    measure_recovery("recover (d)", 1, 1);
    measure("blank test", BLANK, base);
    measure("mount", MOUNT, base);
    measure("mounted put, with room", MOUNTED_PUT, base);
    measure("mounted read", MOUNTED_READ, base);
    measure("mounted delete", MOUNTED_DELETE, base);
    measure("put by tenant", SHARE_PUT, base);
    measure("read by tenant", SHARE_READ, base);
    measure("delete by tenant", SHARE_DELETE, base);
    measure_any_state();
    measure("move", MOVE, base);
    if (n > 2) {
        /* so many that the target needs a second segment */
        write_blocks(b + 1);
        measure("move", MOVE, base);
        measure("rebuild", REBUILD, base);
        write_slots(b);
        measure("put, opening a segment", PUT, base);
        measure("put by tenant", SHARE_PUT, base);
        measure("mounted put, opening", MOUNTED_PUT, base);
        measure_recovery("recover (a)", SLOT + 3, 2);
    }
    if (full_ring) {
        write_slots((n - 1) * b);
        measure("put, compacting first", PUT, base);
        measure("put by tenant", SHARE_PUT, base);
        measure("mount", MOUNT, base);
        measure("mounted put, compacting", MOUNTED_PUT, base);
        measure_recovery("recover (a)", SLOT + 3, 2);
        measure_recovery("recover (b)", SLOT + 2, 3);
        measure_any_state();
        measure("move", MOVE, base);
    }
}

/* The base image: an erased board with this many of its items written. */
static void write_settings(size_t items)
{
    memset(image, 255, length);
    for (size_t i = 0; i < items; i++)
        if (qbx_settings_answer_of(qbx_settings_write(image, length, partitions, layout, layout_length, layout[2 * i],
                                                      setting, setting_length(), UINT64_MAX)) != QBX_SETTINGS_DONE)
            stop("settings");
    memcpy(base, image, length);
}

/* From an erased board on: the first write, one in place, and one for which all items go to the next partition. */
static void measure_settings(size_t items, uint8_t bytes)
{
    layout_length = 2 * items;
    for (size_t i = 0; i < items; i++) {
        layout[2 * i] = item = (uint8_t)i;
        layout[2 * i + 1] = bytes;
    }
    /* and a byte behind the items, which is none of theirs */
    length = partitions * (1 + items * (1 + (size_t)bytes) + 1);
    write_settings(0);
    measure("settings, first write", SETTINGS_WRITE, base);
    if (items > 1) {
        write_settings(items - 1);
        measure("settings, in place", SETTINGS_WRITE, base);
    }
    write_settings(items);
    measure("settings, to the next", SETTINGS_WRITE, base);
    measure("settings, read", SETTINGS_READ, base);
}

/* Prints so many rows from one on, and says which took more than the limit. The most that one took. */
static size_t print_rows(size_t row, size_t count, unsigned long long limit)
{
    size_t most = 0;

    for (size_t end = row + count; row < end; row++) {
        printf("%-24s%8zu bytes of stack\n", rows[row].name, rows[row].bytes);
        if (rows[row].bytes > limit)
            fprintf(stderr, "stack: %s: %zu bytes, more than %llu\n", rows[row].name, rows[row].bytes, limit);
        if (rows[row].bytes > most)
            most = rows[row].bytes;
    }
    return most;
}

int main(int count, char **words)
{
    /* of the requests, and of each of those with large tables */
    unsigned long long limits[1 + LARGE] = {UINT64_MAX, UINT64_MAX, UINT64_MAX, UINT64_MAX, UINT64_MAX};
    size_t most;
    int usage = count != 1 && count != 2 + LARGE, over;

    for (int i = 1; i < count && !usage; i++) {
        char *rest;

        limits[i - 1] = strtoull(words[i], &rest, 10);
        usage = *rest != '\0';
    }
    if (usage) {
        fprintf(stderr, "usage: stack [BYTES ACCOUNT MOVE SALVAGE REBUILD]\n");
        return 2;
    }
    for (size_t i = 0; i < sizeof chips / sizeof chips[0]; i++) {
        n = chips[i].n;
        b = chips[i].b;
        length = qbx_image_length(n, b);
        share();
        measure_chip(chips[i].full_ring);
    }
    for (size_t i = 0; i < sizeof boards / sizeof boards[0]; i++) {
        partitions = boards[i].partitions;
        measure_settings(boards[i].items, boards[i].length);
    }
    most = print_rows(0, REQUESTS, limits[0]);
    printf("%-24s%8zu bytes of stack\n", "the most of these", most);
    over = most > limits[0];
    for (size_t i = 0; i < LARGE; i++)
        over |= print_rows(REQUESTS + i, 1, limits[1 + i]) > limits[1 + i];
    return over;
}
