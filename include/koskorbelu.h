/*
 * koskorbelu.h: the proved reader for left-recursive grammars, for C99 and C++.
 *
 * Link with the archive that scripts/native-archive makes; of the C library it
 * needs memset and nothing else.
 *
 * A slice is two arguments, a pointer and then its length in elements. An
 * answer is a pointer to a fixed number of uint64_t. No function asks anything
 * of the contents: every table, line, allowance and length has a named answer,
 * damaged ones included. Asked of the pointers, as always in C:
 *
 *   - none is null, also where the length is 0;
 *   - each is aligned for its element, and its elements belong to the caller;
 *   - a buffer that is written (work, room, answer) overlaps no other.
 *
 * A table is a sheet in bytes; docs/FORMAT.md says which.
 *
 * A call takes at most 94,208 bytes of stack (KOS_STACK) on x86-64 with this
 * kit's compiler, for a line of 4,000 bytes no more than for a short one: that is
 * measured (c/stack.c) and rounded up, not proved.
 * Nothing is allocated, kept between calls or shared: calls with buffers of
 * their own may run at the same time. The same arguments give the same answer.
 * What each function writes is proved in crates/koskorbelu.
 */
#ifndef KOSKORBELU_H
#define KOSKORBELU_H

#include <stddef.h>
#include <stdint.h>

#ifdef __cplusplus
extern "C" {
#endif

/* The first number of every answer. In brackets what the place then is; it is
 * 0 where none is named. The checks are made in this order, but LOOP after
 * FIELD and before LINE, and READ last. So the line was read with READ and
 * EFFORT to ROOM, and not with every number from EFFORT on. */
enum kos_code {
    KOS_READ = 0,     /* no refusal */
    KOS_SHORT = 1,    /* table under 7 bytes */
    KOS_VERSION = 2,  /* its first byte is not 1 */
    KOS_COUNT = 3,    /* node count not 1 to 512, or rule count not 1 to 64 */
    KOS_LENGTH = 4,   /* slice length, written length and formula differ */
    KOS_ROOT = 5,     /* a root is no node (the first such rule) */
    KOS_KIND = 6,     /* a node's kind is above 6 (the node) */
    KOS_FIELD = 7,    /* a node's field is not as its kind asks (the node) */
    KOS_LINE = 8,     /* line over 4,000 bytes */
    KOS_ALLOW = 9,    /* allowance 0 or over 5,000,000 */
    KOS_WORK = 10,    /* fewer working numbers than the formula asks */
    KOS_EFFORT = 11,  /* the allowance is used up (position of the refused visit) */
    KOS_DEEP = 12,    /* 512 visits are open (position of the refused visit) */
    KOS_FAIL = 13,    /* rule 0 fails */
    KOS_REST = 14,    /* whole-line only: the match ends before the line (matched) */
    KOS_RECORDS = 15, /* the tree has over 1,000 records (matched) */
    KOS_ROOM = 16,    /* room under KOS_STORED_LENGTH (matched) */
    KOS_LOOP = 17     /* a repetition's child may be empty (the first such node) */
};

/* Numbers in an answer of kos_check, kos_report and the two readings. */
#define KOS_CHECK_NUMBERS 2
#define KOS_REPORT_NUMBERS 7
#define KOS_READ_NUMBERS 6

/* Where they stand. Every answer begins with code and place. */
enum kos_at {
    KOS_AT_CODE = 0,
    KOS_AT_PLACE = 1,
    /* the report */
    KOS_AT_MAY_BE_EMPTY = 2,
    KOS_AT_LEFT_RECURSIVE = 3,
    KOS_AT_HOW_MANY = 4,
    KOS_AT_LOWEST = 5,
    KOS_AT_FREE = 6,
    /* a reading */
    KOS_AT_MATCHED = 2,
    KOS_AT_VISITS = 3,
    KOS_AT_RECORDS = 4,
    KOS_AT_FURTHEST = 5
};

/* Limits. */
#define KOS_MOST_NODES 512
#define KOS_MOST_RULES 64
#define KOS_MOST_TABLE 2695
#define KOS_MOST_LINE 4000
#define KOS_MOST_ALLOWANCE 5000000
#define KOS_MOST_RECORDS 1000

/* Working numbers that a reading asks for, with a table of so many nodes: at the
 * limits 24,099,072, or 96 MB. */
#define KOS_WORK_NEEDED(allowance, nodes, line_length) \
    (2048 + 4 * (size_t)(allowance) + 2 * (size_t)(nodes) * ((size_t)(line_length) + 1))

/* The version of a line's stored reading, 1 or 2, and the longest line of version 1. */
#define KOS_STORED_VERSION(line_length) ((size_t)(line_length) <= KOS_MOST_LINE_OF_VERSION_1 ? 1 : 2)
#define KOS_MOST_LINE_OF_VERSION_1 255

/* Bytes of a record, of a stored reading with so many of them, and of the longest. */
#define KOS_RECORD_SIZE(line_length) (KOS_STORED_VERSION(line_length) == 1 ? 5 : 7)
#define KOS_STORED_LENGTH(records, line_length) (5 + (size_t)(records) * KOS_RECORD_SIZE(line_length))
#define KOS_MOST_STORED 7005

/* Bytes of stack that a call takes at most, as measured on x86-64. */
#define KOS_STACK 94208

/*
 * Whether the table is a sheet.
 *
 * answer: code (READ, SHORT to FIELD or LOOP), place. Nothing else is written.
 */
void kos_check(const uint8_t *table, size_t table_length, uint64_t answer[KOS_CHECK_NUMBERS]);

/*
 * The report on a table.
 *
 * answer: code (READ, SHORT to FIELD or LOOP), place, the mask of rules whose
 * root may be empty (bit i for rule i), the mask of left-recursive rules, how
 * many bits are set in it, the lowest of them (64 if none), free (1 or 0; 1 if
 * no rule that rule 0 can reach is left-recursive). On a refusal both masks, the
 * number and free are 0 and the lowest is 64. Nothing else is written.
 */
void kos_report(const uint8_t *table, size_t table_length, uint64_t answer[KOS_REPORT_NUMBERS]);

/*
 * How far the sheet matches from the line's beginning.
 *
 * answer: code, place, matched, visits, records, furthest.
 *
 *   SHORT to WORK   zeros after the place; the same with LOOP.
 *   EFFORT to FAIL  matched 0, the visits made, records 0, furthest.
 *   RECORDS         matched, visits, 1,001, furthest.
 *   ROOM            matched, visits, the true number of records, furthest.
 *   READ            the same, and the tree is stored in the room.
 *
 * furthest: the largest position at which a range node was visited, 0 if none
 * was. Ranges that fail count, also inside a not and at the line's end, where
 * it is the line's length; a refused visit does not. So it may be beyond the
 * match, and is mostly where a line went wrong.
 *
 * work: SHORT to WORK and LOOP leave it as found. Else the first numbers, as
 * many as KOS_WORK_NEEDED says, are 0 and the rest is as found. What stood
 * there before has no influence.
 *
 * room: READ leaves the stored reading in its first bytes, as many as
 * KOS_STORED_LENGTH says, and the rest as found; any other answer leaves all of
 * it as found. KOS_MOST_STORED bytes are enough for every line.
 *
 * Stored reading: version; its length (2 bytes, the high one first); number of
 * records (2); then the records. A line of up to 255 bytes gives version 1, and
 * five bytes for each record: rule, start, end, number of children (2). A longer
 * line gives version 2, and seven: rule, start (2), end (2), number of children
 * (2). The version goes by the line, however little of it matches. Children come
 * before their parent, in order; the root is last.
 */
void kos_read_prefix(const uint8_t *table, size_t table_length,
                     const uint8_t *line, size_t line_length,
                     uint64_t allowance,
                     uint32_t *work, size_t work_length,
                     uint8_t *room, size_t room_length,
                     uint64_t answer[KOS_READ_NUMBERS]);

/*
 * The same, where the whole line has to match: a match that ends before the
 * line does gives REST, with place and matched its end, visits, records 0,
 * furthest.
 */
void kos_read_whole(const uint8_t *table, size_t table_length,
                    const uint8_t *line, size_t line_length,
                    uint64_t allowance,
                    uint32_t *work, size_t work_length,
                    uint8_t *room, size_t room_length,
                    uint64_t answer[KOS_READ_NUMBERS]);

#ifdef __cplusplus
}
#endif

#endif
