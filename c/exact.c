/*
 * exact.c: the four C functions on buffers of exactly the length that is needed, as lent.h lends them. All numbers, and
 * everything left in every buffer, is compared with what document 01 says; sheets A and B and the lines marked P are
 * 01's. Lines at the limits of their length are those of long_lines.c.
 */
#include "lent.h"

/* The nodes of sheet B, which two more sheets begin with. */
#define NODES_OF_B \
    2, 0, 1, 0, 0,        /* 0 rule 1 */ \
    1, 0, 44, 0, 44,      /* 1 ',' */ \
    3, 0, 1, 0, 0,        /* 2 sequence 1 0 */ \
    3, 0, 0, 0, 2,        /* 3 sequence 0 2 */ \
    4, 0, 3, 0, 0,        /* 4 choice 3 0 */ \
    1, 0, 48, 0, 57       /* 5 a digit */
static const uint8_t SHEET_B[] = {
    1, 0, 41, 0, 6, 0, 2, /* version, length, six nodes, two rules */
    0, 4, 0, 5,           /* their roots */
    NODES_OF_B,
};
static const uint8_t B_UNUSED[] = {
    1, 0, 48, 0, 7, 0, 3, /* B with a rule that is never used: version, length, seven nodes, three rules */
    0, 4, 0, 5, 0, 6,     /* their roots */
    NODES_OF_B,
    2, 0, 2, 0, 0,        /* 6 rule 2 */
};
static const uint8_t B_BEHIND_NOT[] = {
    1, 0, 58, 0, 9, 0, 3, /* the same with D <- !R [0-9]: version, length, nine nodes, three rules */
    0, 4, 0, 8, 0, 6,     /* their roots */
    NODES_OF_B,
    2, 0, 2, 0, 0,        /* 6 rule 2 */
    5, 0, 6, 0, 0,        /* 7 not 6 */
    3, 0, 7, 0, 5,        /* 8 sequence 7 5 */
};
static const uint8_t A_WITH_A_DOT[] = {
    1, 0, 63, 0, 10, 0, 3, /* L <- S '.' / D; S <- S '+' D / D; D <- [0-9]: version, length, ten nodes, three rules */
    0, 4, 0, 8, 0, 9,      /* their roots */
    2, 0, 1, 0, 0,         /* 0 rule 1 */
    2, 0, 2, 0, 0,         /* 1 rule 2 */
    1, 0, 46, 0, 46,       /* 2 '.' */
    3, 0, 0, 0, 2,         /* 3 sequence 0 2 */
    4, 0, 3, 0, 1,         /* 4 choice 3 1 */
    1, 0, 43, 0, 43,       /* 5 '+' */
    3, 0, 5, 0, 1,         /* 6 sequence 5 1 */
    3, 0, 0, 0, 6,         /* 7 sequence 0 6 */
    4, 0, 7, 0, 1,         /* 8 choice 7 1 */
    1, 0, 48, 0, 57,       /* 9 a digit */
};
static const uint8_t NOT_ITSELF[] = {
    1, 0, 29, 0, 4, 0, 1, /* S <- !S 'a': version, length, four nodes, one rule */
    0, 3,                 /* its root */
    2, 0, 0, 0, 0,        /* 0 rule 0 */
    5, 0, 0, 0, 0,        /* 1 not 0 */
    1, 0, 97, 0, 97,      /* 2 'a' */
    3, 0, 1, 0, 2,        /* 3 sequence 1 2 */
};
static const uint8_t LOOKING_AHEAD[] = {
    1, 0, 39, 0, 6, 0, 1, /* S <- 'a' !('b' 'c'): version, length, six nodes, one rule */
    0, 5,                 /* its root */
    1, 0, 97, 0, 97,      /* 0 'a' */
    1, 0, 98, 0, 98,      /* 1 'b' */
    1, 0, 99, 0, 99,      /* 2 'c' */
    3, 0, 1, 0, 2,        /* 3 sequence 1 2 */
    5, 0, 3, 0, 0,        /* 4 not 3 */
    3, 0, 0, 0, 4,        /* 5 sequence 0 4 */
};
static const uint8_t RIGHT_RECURSIVE[] = {
    1, 0, 29, 0, 4, 0, 1, /* S <- 'a' S / 'a': version, length, four nodes, one rule */
    0, 3,                 /* its root */
    2, 0, 0, 0, 0,        /* 0 rule 0 */
    1, 0, 97, 0, 97,      /* 1 'a' */
    3, 0, 1, 0, 0,        /* 2 sequence 1 0 */
    4, 0, 2, 0, 1,        /* 3 choice 2 1 */
};
static const uint8_t OPTION_REPEATED[] = {
    1, 0, 39, 0, 6, 0, 1, /* S <- ('kW'?)*: version, length, six nodes, one rule */
    0, 5,                 /* its root */
    1, 0, 107, 0, 107,    /* 0 'k' */
    1, 0, 87, 0, 87,      /* 1 'W' */
    3, 0, 0, 0, 1,        /* 2 sequence 0 1 */
    0, 0, 0, 0, 0,        /* 3 empty */
    4, 0, 2, 0, 3,        /* 4 choice 2 3 */
    6, 0, 4, 0, 0,        /* 5 repetition 4 */
};
static const uint8_t TRIED_THRICE[] = {
    1, 0, 66, 0, 11, 0, 2, /* S <- R 'x' / 'a' R 'y' / R; R <- [a-c]*: version, length, eleven nodes, two rules */
    0, 8, 0, 10,           /* their roots */
    2, 0, 1, 0, 0,         /* 0 rule 1 */
    1, 0, 120, 0, 120,     /* 1 'x' */
    3, 0, 0, 0, 1,         /* 2 sequence 0 1 */
    1, 0, 97, 0, 97,       /* 3 'a' */
    1, 0, 121, 0, 121,     /* 4 'y' */
    3, 0, 0, 0, 4,         /* 5 sequence 0 4 */
    3, 0, 3, 0, 5,         /* 6 sequence 3 5 */
    4, 0, 6, 0, 0,         /* 7 choice 6 0 */
    4, 0, 2, 0, 7,         /* 8 choice 2 7 */
    1, 0, 97, 0, 99,       /* 9 'a' to 'c' */
    6, 0, 9, 0, 0,         /* 10 repetition 9 */
};
static const uint8_t ROWS_IN_A_ROW[] = {
    1, 0, 34, 0, 5, 0, 1, /* S <- ('a'* 'b')*: version, length, five nodes, one rule */
    0, 4,                 /* its root */
    1, 0, 97, 0, 97,      /* 0 'a' */
    6, 0, 0, 0, 0,        /* 1 repetition 0 */
    1, 0, 98, 0, 98,      /* 2 'b' */
    3, 0, 1, 0, 2,        /* 3 sequence 1 2 */
    6, 0, 3, 0, 0,        /* 4 repetition 3 */
};

/*
 * Stored readings: A on 7, A with a dot on 7+2. and on 7, B on 1,5, B on 1, one byte by one rule, S <- 'kW'* on kWkW,
 * R thrice on aby and on abc, S <- ('a'* 'b')* on aabab.
 */
static const uint8_t A_ONE[] = {1, 0, 15, 0, 2, 1, 0, 1, 0, 0, 0, 0, 1, 0, 1};
static const uint8_t DOT_TWO[] = {1, 0, 30, 0, 5, 2, 0, 1, 0, 0, 1, 0, 1, 0, 1,
                                  2, 2, 3, 0, 0, 1, 0, 3, 0, 2, 0, 0, 4, 0, 1};
static const uint8_t DOT_NONE[] = {1, 0, 15, 0, 2, 2, 0, 1, 0, 0, 0, 0, 1, 0, 1};
static const uint8_t B_PAIR[] = {1, 0, 20, 0, 3, 1, 0, 1, 0, 0, 1, 2, 3, 0, 0, 0, 0, 3, 0, 2};
static const uint8_t B_ONE[] = {1, 0, 15, 0, 2, 1, 0, 1, 0, 0, 0, 0, 1, 0, 1};
static const uint8_t ONE_BYTE[] = {1, 0, 10, 0, 1, 0, 0, 1, 0, 0};
static const uint8_t WORD_TWICE[] = {1, 0, 10, 0, 1, 0, 0, 4, 0, 0};
static const uint8_t BEHIND_A[] = {1, 0, 15, 0, 2, 1, 1, 2, 0, 0, 0, 0, 3, 0, 1};
static const uint8_t ALL_OF_THREE[] = {1, 0, 15, 0, 2, 1, 0, 3, 0, 0, 0, 0, 3, 0, 1};
static const uint8_t ALL_OF_FIVE[] = {1, 0, 10, 0, 1, 0, 0, 5, 0, 0};

typedef void question(const uint8_t *table, size_t table_length, uint64_t *answer);

static void ask(question *function, const uint8_t *bytes, size_t length, const uint64_t *due, size_t numbers)
{
    struct slice table = lend_bytes(bytes, length), answer = lend(8 * numbers);
    function(table.at, length, (uint64_t *)(void *)answer.at);
    must_answer(answer, due);
    give_back(table);
}

static void check(const uint8_t *table, size_t length, uint64_t code, uint64_t place)
{
    uint64_t due[] = {code, place};
    ask(kos_check, table, length, due, KOS_CHECK_NUMBERS);
}

static void report(const uint8_t *table, size_t length, uint64_t code, uint64_t place, uint64_t may_be_empty,
                   uint64_t left_recursive, uint64_t how_many, uint64_t lowest, uint64_t is_free)
{
    uint64_t due[] = {code, place, may_be_empty, left_recursive, how_many, lowest, is_free};
    ask(kos_report, table, length, due, KOS_REPORT_NUMBERS);
}

static void worked_lines(void)
{
    TAKE(SHEET_A);
    check(sheet, sheet_length, KOS_READ, 0);
    report(sheet, sheet_length, KOS_READ, 0, 0, 1, 1, 0, 0);
    for (int whole = 0; whole <= 1; whole++) {
        reads("A on 7+2", "7+2", whole, 2500, DUE(KOS_READ, 0, 3, 19, 4, 3), A_TWO);
        reads("A on 7+2, allowance 19", "7+2", whole, 19, DUE(KOS_READ, 0, 3, 19, 4, 3), A_TWO);
        reads("A on 7+2, allowance 18", "7+2", whole, 18, DUE(KOS_EFFORT, 0, 0, 18, 0, 3), NULL);
        reads("A on 7", "7", whole, 2500, DUE(KOS_READ, 0, 1, 12, 2, 1), A_ONE);
        reads("A on an empty line", "", whole, 2500, DUE(KOS_FAIL, 0, 0, 5, 0, 0), NULL);
        reads("A on +", "+", whole, 2500, DUE(KOS_FAIL, 0, 0, 5, 0, 0), NULL);
    }
    reads("A on 7+, prefix", "7+", 0, 2500, DUE(KOS_READ, 0, 1, 14, 2, 2), A_ONE);
    reads("A on 7+, whole", "7+", 1, 2500, DUE(KOS_REST, 1, 1, 14, 0, 2), NULL);

    TAKE(SHEET_B);
    check(sheet, sheet_length, KOS_READ, 0);
    report(sheet, sheet_length, KOS_READ, 0, 0, 0, 0, 64, 1);
    for (int whole = 0; whole <= 1; whole++) {
        reads("B on 1,5", "1,5", whole, 49, DUE(KOS_READ, 0, 3, 8, 3, 2), B_PAIR);
        reads("B on 1", "1", whole, 2500, DUE(KOS_READ, 0, 1, 7, 2, 1), B_ONE);
    }
    uint8_t turned[sizeof SHEET_B];
    memcpy(turned, SHEET_B, sizeof turned);
    turned[33] = 0, turned[35] = 3; /* node 4: choice 0 3 */
    TAKE(turned);
    reads("B turned round on 1,5", "1,5", 1, 2500, DUE(KOS_REST, 1, 1, 3, 0, 0), NULL);

    TAKE(B_UNUSED);
    report(sheet, sheet_length, KOS_READ, 0, 0, 4, 1, 2, 1);
    for (int whole = 0; whole <= 1; whole++) {
        reads("B with a rule unused on 1,5", "1,5", whole, 8, DUE(KOS_READ, 0, 3, 8, 3, 2), B_PAIR);
        reads("B with a rule unused on 1", "1", whole, 2500, DUE(KOS_READ, 0, 1, 7, 2, 1), B_ONE);
    }
    TAKE(B_BEHIND_NOT);
    report(sheet, sheet_length, KOS_READ, 0, 0, 4, 1, 2, 0);
    reads("B with rule 2 behind a not on 1,5", "1,5", 1, 2500, DUE(KOS_READ, 0, 3, 16, 3, 2), B_PAIR);
    reads("B with rule 2 behind a not on 1", "1", 1, 2500, DUE(KOS_READ, 0, 1, 16, 2, 1), B_ONE);

    TAKE(A_WITH_A_DOT);
    report(sheet, sheet_length, KOS_READ, 0, 0, 2, 1, 1, 0);
    for (int whole = 0; whole <= 1; whole++) {
        reads("A with a dot on 7+2.", "7+2.", whole, 23, DUE(KOS_READ, 0, 4, 23, 5, 3), DOT_TWO);
        reads("A with a dot on 7+2., allowance 22", "7+2.", whole, 22, DUE(KOS_EFFORT, 3, 0, 22, 0, 3), NULL);
        reads("A with a dot on 7", "7", whole, 2500, DUE(KOS_READ, 0, 1, 18, 2, 1), DOT_NONE);
    }

    TAKE(NOT_ITSELF);
    report(sheet, sheet_length, KOS_READ, 0, 0, 1, 1, 0, 0);
    reads("S <- !S 'a' on a", "a", 1, 2500, DUE(KOS_READ, 0, 1, 7, 1, 0), ONE_BYTE);
}

/* What a not looks at counts, up to the visit that is refused and not with it. */
static void furthest_ranges(void)
{
    static char line[256];
    memset(line, 'a', 255);
    TAKE(LOOKING_AHEAD);
    reads("S <- 'a' !('b' 'c') on abd, prefix", "abd", 0, 2500, DUE(KOS_READ, 0, 1, 6, 1, 2), ONE_BYTE);
    reads("S <- 'a' !('b' 'c') on abd, whole", "abd", 1, 2500, DUE(KOS_REST, 1, 1, 6, 0, 2), NULL);
    reads("S <- 'a' !('b' 'c') on ab", "ab", 0, 2500, DUE(KOS_READ, 0, 1, 6, 1, 2), ONE_BYTE);
    for (int whole = 0; whole <= 1; whole++) {
        reads("S <- 'a' !('b' 'c') on a", "a", whole, 2500, DUE(KOS_READ, 0, 1, 5, 1, 1), ONE_BYTE);
        reads("S <- 'a' !('b' 'c') on abc", "abc", whole, 2500, DUE(KOS_FAIL, 0, 0, 6, 0, 2), NULL);
        reads("S <- 'a' !('b' 'c') on abd, allowance 5", "abd", whole, 5, DUE(KOS_EFFORT, 2, 0, 5, 0, 1), NULL);
        reads("S <- 'a' !('b' 'c') on abd, allowance 4", "abd", whole, 4, DUE(KOS_EFFORT, 1, 0, 4, 0, 0), NULL);
    }
    TAKE(RIGHT_RECURSIVE);
    reads("S <- 'a' S / 'a' on 255 bytes", line, 1, 2500, DUE(KOS_DEEP, 170, 0, 682, 0, 169), NULL);
}

/* The records of rules that double: the tree of a rule, at 0 to 0. Gives where the next record goes. */
static uint8_t *put_doubled(uint8_t *at, size_t rule, size_t last)
{
    for (int twice = 0; rule < last && twice < 2; twice++) at = put_doubled(at, rule + 1, last);
    return put_record(at, 1, rule, 0, 0, rule < last ? 2 : 0);
}

/* So many rules, each the next one twice, the last empty. */
static void take_doubling(size_t rules)
{
    begin();
    for (size_t rule = 1; rule < rules; rule++) {
        size_t next = add_node(&made, RULE, rule, 0);
        add_root(&made, add_node(&made, SEQUENCE, next, next));
    }
    add_root(&made, add_node(&made, EMPTY, 0, 0));
    take_made();
}

static void doubling_rules(void)
{
    static uint8_t stored[2560] = {1, 10, 0, 1, 255};
    put_doubled(stored + 5, 0, 8);
    take_doubling(9);
    report(sheet, sheet_length, KOS_READ, 0, 511, 0, 0, 64, 1);
    reads("nine rules that double", "", 1, 2500, DUE(KOS_READ, 0, 0, 25, 511, 0), stored);
    take_doubling(10);
    reads("ten rules that double", "", 1, 2500, DUE(KOS_RECORDS, 0, 0, 28, 1001, 0), NULL);
}

/* A on 7+2 with an allowance of 19 needs 2,180 working numbers and 25 bytes of room. */
static void limits_of_what_is_lent(void)
{
    const uint64_t *work = DUE(KOS_WORK, 0, 0, 0, 0, 0), *room = DUE(KOS_ROOM, 3, 3, 19, 4, 3);
    const uint64_t *allow = DUE(KOS_ALLOW, 0, 0, 0, 0, 0);
    TAKE(SHEET_A);
    read_lent(asked("a working number short", "7+2", 1, 19, work, NULL), 2179, 25);
    read_lent(asked("no working numbers", "7+2", 1, 19, work, NULL), 0, 25);
    read_lent(asked("a byte of room short", "7+2", 1, 19, room, NULL), 2180, 24);
    read_lent(asked("no room", "7+2", 1, 19, room, NULL), 2180, 0);
    read_lent(asked("allowance 0", "7", 1, 0, allow, NULL), 3000, 30);
    read_lent(asked("allowance 5,000,001", "7", 1, 5000001, allow, NULL), 3000, 30);
    read_lent(asked("allowance 2^64 - 1", "7", 1, UINT64_MAX, allow, NULL), 3000, 30);
}

/* A repetition's next visit of itself takes the place of the one before: it counts, and no more are open. */
static void rows(void)
{
    static char line[256];
    memset(line, '7', 255);
    TAKE(DIGITS);
    for (int whole = 0; whole <= 1; whole++) {
        reads("[0-9]* on 255 digits, allowance 100", line, whole, 100, DUE(KOS_EFFORT, 50, 0, 100, 0, 49), NULL);
        reads("[0-9]* on 255 digits, allowance 101", line, whole, 101, DUE(KOS_EFFORT, 50, 0, 101, 0, 49), NULL);
    }
    TAKE(TRIED_THRICE);
    report(sheet, sheet_length, KOS_READ, 0, 3, 0, 0, 64, 1);
    for (int whole = 0; whole <= 1; whole++) {
        reads("R thrice on aby", "aby", whole, 17, DUE(KOS_READ, 0, 3, 17, 2, 2), BEHIND_A);
        reads("R thrice on aby, allowance 16", "aby", whole, 16, DUE(KOS_EFFORT, 2, 0, 16, 0, 2), NULL);
        reads("R thrice on aby, allowance 15", "aby", whole, 15, DUE(KOS_EFFORT, 1, 0, 15, 0, 2), NULL);
        reads("R thrice on abc", "abc", whole, 2500, DUE(KOS_READ, 0, 3, 20, 2, 3), ALL_OF_THREE);
    }
    TAKE(ROWS_IN_A_ROW);
    reads("('a'* 'b')* on aabab", "aabab", 1, 21, DUE(KOS_READ, 0, 5, 21, 1, 5), ALL_OF_FIVE);
    reads("('a'* 'b')* on aabab, allowance 13", "aabab", 1, 13, DUE(KOS_EFFORT, 4, 0, 13, 0, 3), NULL);
    reads("('a'* 'b')* on aaba", "aaba", 1, 2500, DUE(KOS_REST, 3, 3, 16, 0, 4), NULL);
}

/* A table that is refused is refused by all four, and nothing is changed. */
static void refused(const char *name, const uint8_t *table, size_t length, uint64_t code, uint64_t place)
{
    const uint64_t *due = DUE(code, place, 0, 0, 0, 0);
    now = name;
    check(table, length, code, place);
    report(table, length, code, place, 0, 0, 0, 64, 0);
    take(table, length);
    reads(name, "7+2", 0, 19, due, NULL);
    reads(name, "7+2", 1, 19, due, NULL);
    read_lent(asked(name, "", 1, 0, due, NULL), 0, 0);
}

/* Sheet A with two bytes at a place changed. */
static const uint8_t *changed(size_t at, uint8_t high, uint8_t low)
{
    static uint8_t table[sizeof SHEET_A + 1];
    memcpy(table, SHEET_A, sizeof SHEET_A);
    table[at] = high, table[at + 1] = low;
    return table;
}

static void refused_tables(void)
{
    size_t length = sizeof SHEET_A;
    refused("no table", SHEET_A, 0, KOS_SHORT, 0);
    refused("six bytes", SHEET_A, 6, KOS_SHORT, 0);
    refused("version 2", changed(0, 2, 0), length, KOS_VERSION, 0);
    refused("no nodes", changed(3, 0, 0), length, KOS_COUNT, 0);
    refused("513 nodes", changed(3, 2, 1), length, KOS_COUNT, 0);
    refused("no rules", changed(5, 0, 0), length, KOS_COUNT, 0);
    refused("65 rules", changed(5, 0, 65), length, KOS_COUNT, 0);
    refused("seven bytes", SHEET_A, 7, KOS_LENGTH, 0);
    refused("a byte short", SHEET_A, length - 1, KOS_LENGTH, 0);
    refused("a byte more", changed(0, 1, 0), length + 1, KOS_LENGTH, 0);
    refused("root 7 of rule 1", changed(9, 0, 7), length, KOS_ROOT, 1);
    refused("kind 7 of node 3", changed(26, 7, 0), length, KOS_KIND, 3);
    refused("a child of node 4 not below it", changed(34, 0, 4), length, KOS_FIELD, 4);
    refused("a range that ends before it begins", changed(44, 0, 47), length, KOS_FIELD, 6);
}

/* LOOP is given before LINE, ALLOW and WORK, and after KIND and FIELD of whichever node. */
static void repetitions_of_nothing(void)
{
    static char line[KOS_MOST_LINE + 2];
    static uint8_t table[sizeof OPTION_REPEATED];
    size_t length = sizeof table;
    const uint64_t *due = DUE(KOS_LOOP, 5, 0, 0, 0, 0);
    memset(line, 'k', sizeof line - 1);
    refused("('kW'?)*", OPTION_REPEATED, length, KOS_LOOP, 5);
    for (int whole = 0; whole <= 1; whole++) {
        reads("('kW'?)* on kW", "kW", whole, 2500, due, NULL);
        read_lent(asked("('kW'?)* on 4,001 bytes, nothing lent", line, whole, 0, due, NULL), 0, 0);
        reads("('kW'?)* on 4,001 bytes", line, whole, 2500, due, NULL);
        read_lent(asked("('kW'?)*, allowance 5,000,001", "kW", whole, 5000001, due, NULL), 3000, 30);
    }
    memcpy(table, OPTION_REPEATED, length);
    memcpy(table + 29, (const uint8_t[]){6, 0, 3, 0, 0}, 5); /* node 4 */
    refused("two repetitions of nothing", table, length, KOS_LOOP, 4);
    table[34] = 7;
    refused("one, then kind 7", table, length, KOS_KIND, 5);
    table[34] = 6, table[36] = 5;
    refused("one, then a field wrong", table, length, KOS_FIELD, 5);

    memcpy(table, OPTION_REPEATED, length);
    table[36] = 2; /* node 5 repeats node 2: 'kW'* */
    TAKE(table);
    check(sheet, sheet_length, KOS_READ, 0);
    report(sheet, sheet_length, KOS_READ, 0, 1, 0, 0, 64, 1);
    for (int whole = 0; whole <= 1; whole++)
        reads("'kW'* on kWkW", "kWkW", whole, 2500, DUE(KOS_READ, 0, 4, 11, 1, 4), WORD_TWICE);
    reads("'kW'* on 4,001 bytes", line, 1, 2500, DUE(KOS_LINE, 0, 0, 0, 0, 0), NULL);
}

static void cases(void)
{
    worked_lines();
    furthest_ranges();
    doubling_rules();
    rows();
    limits_of_what_is_lent();
    refused_tables();
    repetitions_of_nothing();
}

int main(void)
{
    return on_both_sides(cases);
}
