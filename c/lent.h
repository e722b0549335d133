/*
 * lent.h: a reading with exactly what it needs. Each slice stands right before a page that can't be touched, then right
 * behind one; what is left in every buffer is compared to the last byte. Sheet A and its line 7+2 are document 01's.
 */
#ifndef LENT_H
#define LENT_H

#define _DEFAULT_SOURCE /* for MAP_ANONYMOUS */
#include <inttypes.h>
#include <signal.h>
#include <stdio.h>
#include <stdlib.h>
#include <sys/mman.h>
#include <unistd.h>

#include "table.h"

static const uint8_t SHEET_A[] = {
    1, 0, 46, 0, 7, 0, 2, /* version, length, seven nodes, two rules */
    0, 5, 0, 6,           /* their roots */
    2, 0, 0, 0, 0,        /* 0 rule 0 */
    1, 0, 43, 0, 43,      /* 1 '+' */
    2, 0, 1, 0, 0,        /* 2 rule 1 */
    3, 0, 1, 0, 2,        /* 3 sequence 1 2 */
    3, 0, 0, 0, 3,        /* 4 sequence 0 3 */
    4, 0, 4, 0, 2,        /* 5 choice 4 2 */
    1, 0, 48, 0, 57,      /* 6 a digit */
};
static const uint8_t DIGITS[] = {
    1, 0, 19, 0, 2, 0, 1, /* S <- [0-9]*: version, length, two nodes, one rule */
    0, 1,                 /* its root */
    1, 0, 48, 0, 57,      /* 0 a digit */
    6, 0, 0, 0, 0,        /* 1 repetition 0 */
};
/* The stored reading of A on 7+2. */
static const uint8_t A_TWO[] = {1, 0, 25, 0, 4, 1, 0, 1, 0, 0, 0, 0, 1, 0, 1, 1, 2, 3, 0, 0, 0, 0, 3, 0, 2};

/* Where the page that can't be touched stands. */
enum side { BEHIND, IN_FRONT };
static enum side side;

/* What is checked now, for whoever reads that it failed. */
static const char *now = "";
static int failures;

static void must(int holds, const char *what)
{
    if (holds) return;
    failures++;
    printf("%s, guard %s: %s\n", now, side == BEHIND ? "behind" : "in front", what);
}

static void touched(int signal_number)
{
    (void)signal_number;
    must(0, "touched what was not lent");
    fflush(stdout);
    _exit(1);
}

/* A slice beside a page that can't be touched. The rest of its own pages keeps a fill. */
struct slice {
    uint8_t *map, *own, *at;
    size_t map_length, own_length, length;
};

static uint8_t fill(size_t i)
{
    return (uint8_t)(i * 7 + 3);
}

static struct slice lend(size_t length)
{
    size_t page = (size_t)sysconf(_SC_PAGESIZE);
    struct slice slice;
    slice.length = length;
    slice.own_length = (length / page + 1) * page;
    slice.map_length = slice.own_length + page;
    slice.map = mmap(NULL, slice.map_length, PROT_READ | PROT_WRITE, MAP_PRIVATE | MAP_ANONYMOUS, -1, 0);
    if (slice.map == MAP_FAILED) {
        perror("mmap");
        exit(2);
    }
    slice.own = side == BEHIND ? slice.map : slice.map + page;
    slice.at = side == BEHIND ? slice.own + slice.own_length - length : slice.own;
    mprotect(side == BEHIND ? slice.map + slice.own_length : slice.map, page, PROT_NONE);
    for (size_t i = 0; i < slice.own_length; i++) slice.own[i] = fill(i);
    return slice;
}

/* A slice that is only read: to write it is to touch what was not lent. */
static struct slice lend_bytes(const uint8_t *bytes, size_t length)
{
    struct slice slice = lend(length);
    if (length > 0) memcpy(slice.at, bytes, length);
    mprotect(slice.own, slice.own_length, PROT_READ);
    return slice;
}

/* Whether all is as found, but for so many bytes at the slice's beginning. */
static int is_as_found(struct slice slice, size_t but)
{
    size_t start = (size_t)(slice.at - slice.own);
    for (size_t i = 0; i < slice.own_length; i++)
        if ((i < start || i >= start + but) && slice.own[i] != fill(i)) return 0;
    return 1;
}

static int is_zero(struct slice slice, size_t length)
{
    for (size_t i = 0; i < length; i++)
        if (slice.at[i] != 0) return 0;
    return 1;
}

static void give_back(struct slice slice)
{
    munmap(slice.map, slice.map_length);
}

static void show(const char *word, const uint8_t *numbers, size_t count)
{
    printf("  %s:", word);
    for (size_t i = 0; i < count; i++) {
        uint64_t number;
        memcpy(&number, numbers + 8 * i, 8);
        printf(" %" PRIu64, number);
    }
    printf("\n");
}

/* An answer of so many numbers: they are as due, and nothing else is written. */
static void must_answer(struct slice answer, const uint64_t *due)
{
    if (memcmp(answer.at, due, answer.length) != 0) {
        must(0, "numbers");
        show("given", answer.at, answer.length / 8);
        show("due", (const uint8_t *)due, answer.length / 8);
    }
    must(is_as_found(answer, answer.length), "written beside the answer");
    give_back(answer);
}

/* A reading: what is asked, and what is due. */
struct reading {
    const uint8_t *table;
    size_t table_length;
    const char *line;
    int whole;
    uint64_t allowance;
    const uint64_t *due;
    const uint8_t *stored; /* with READ */
};
#define DUE(...) ((const uint64_t[]){__VA_ARGS__})

static size_t work_needed(const struct reading *asked)
{
    size_t nodes = asked->table_length < 5 ? 0 : (size_t)asked->table[3] << 8 | asked->table[4];
    return KOS_WORK_NEEDED(asked->allowance, nodes, strlen(asked->line));
}

static size_t stored_length(const struct reading *asked)
{
    return KOS_STORED_LENGTH(asked->due[KOS_AT_RECORDS], strlen(asked->line));
}

/* READ and EFFORT to ROOM. LOOP is no such code, though its number is above theirs. */
static int line_was_read(uint64_t code)
{
    return code == KOS_READ || (KOS_EFFORT <= code && code <= KOS_ROOM);
}

static void must_leave(const struct reading *asked, struct slice work, struct slice room)
{
    uint64_t code = asked->due[KOS_AT_CODE];
    size_t cleared = line_was_read(code) ? 4 * work_needed(asked) : 0;
    size_t stored = code == KOS_READ ? stored_length(asked) : 0;
    must(is_zero(work, cleared), "working numbers not cleared");
    must(is_as_found(work, cleared), "working numbers changed");
    must(stored == 0 || memcmp(room.at, asked->stored, stored) == 0, "stored reading");
    must(is_as_found(room, stored), "room changed");
}

/* The reading with so many working numbers and so much room. */
static void read_lent(struct reading asked, size_t work_length, size_t room_length)
{
    struct slice table = lend_bytes(asked.table, asked.table_length);
    struct slice line = lend_bytes((const uint8_t *)asked.line, strlen(asked.line));
    struct slice work = lend(4 * work_length), room = lend(room_length), answer = lend(8 * KOS_READ_NUMBERS);
    (asked.whole ? kos_read_whole : kos_read_prefix)(
        table.at, table.length, line.at, line.length, asked.allowance,
        (uint32_t *)(void *)work.at, work_length, room.at, room_length, (uint64_t *)(void *)answer.at);
    must_answer(answer, asked.due);
    must_leave(&asked, work, room);
    give_back(table);
    give_back(line);
    give_back(work);
    give_back(room);
}

/* The sheet at hand. */
static const uint8_t *sheet;
static size_t sheet_length;

static void take(const uint8_t *table, size_t length)
{
    sheet = table;
    sheet_length = length;
}
#define TAKE(table) take(table, sizeof(table))

/* A sheet that is put together. */
static struct table made;

static void begin(void)
{
    memset(&made, 0, sizeof made);
}

static void take_made(void)
{
    finish(&made);
    take(made.bytes, made.length);
}

static struct reading asked(const char *name, const char *line, int whole, uint64_t allowance, const uint64_t *due,
                            const uint8_t *stored)
{
    struct reading reading = {sheet, sheet_length, line, whole, allowance, due, stored};
    now = name;
    return reading;
}

/* With exactly the working numbers and the room that are needed, then with some more of either. */
static void reads(const char *name, const char *line, int whole, uint64_t allowance, const uint64_t *due,
                  const uint8_t *stored)
{
    struct reading reading = asked(name, line, whole, allowance, due, stored);
    size_t work = work_needed(&reading), room = stored_length(&reading);
    read_lent(reading, work, room);
    read_lent(reading, work + 3, room + 3);
}

/* One record, with so many bytes a position. Gives where the next one goes. */
static uint8_t *put_record(uint8_t *at, size_t width, size_t rule, size_t start, size_t end, size_t children)
{
    uint8_t two[2];
    *at++ = (uint8_t)rule;
    put_two(two, start);
    memcpy(at, two + 2 - width, width);
    put_two(two, end);
    memcpy(at + width, two + 2 - width, width);
    put_two(at + 2 * width, children);
    return at + 2 * width + 2;
}

/* All cases with the page on either side. Gives what a program ends with. */
static int on_both_sides(void (*cases)(void))
{
    signal(SIGSEGV, touched);
    signal(SIGBUS, touched);
    for (side = BEHIND; side <= IN_FRONT; side++) cases();
    return failures != 0;
}

#endif
