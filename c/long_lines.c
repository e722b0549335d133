/*
 * long_lines.c: lines at the limits of their length, on buffers of exactly the length that is needed, as exact.c has
 * the others. Up to 255 bytes give version 1 of the stored reading; up to 4,000 give version 2, with two bytes for each
 * position and seven for each record.
 */
#include "lent.h"

/* A line of so many bytes: the one byte between what it begins and ends with. It stays until the next one is made. */
static const char *filled(const char *begins, char byte, const char *ends, size_t length)
{
    static char line[KOS_MOST_LINE + 2];
    memset(line, byte, length);
    memcpy(line, begins, strlen(begins));
    strcpy(line + length - strlen(ends), ends);
    return line;
}

/* The stored reading that is due, begun with its first five bytes: the version is how many bytes a position has. */
static uint8_t stored[KOS_MOST_STORED];
static size_t width;

static uint8_t *put_head(const uint8_t *head)
{
    memcpy(stored, head, 5);
    width = head[0];
    return stored + 5;
}
#define HEAD(...) ((const uint8_t[5]){__VA_ARGS__})

/* The stored reading of S <- [0-9]* on 4,000 digits. */
static const uint8_t FOUR_THOUSAND[] = {2, 0, 12, 0, 1, 0, 0, 0, 15, 160, 0, 0};

/* S <- [0-9]*: at each position the row is visited and a digit, and there is one record. */
static void row_of_digits(const char *name, size_t length, const uint8_t *due)
{
    const char *line = filled("", '7', "", length);
    size_t visits = 2 * (length + 1);
    TAKE(DIGITS);
    for (int whole = 0; whole <= 1; whole++) {
        reads(name, line, whole, visits, DUE(KOS_READ, 0, length, visits, 1, length), due);
        reads(name, line, whole, visits - 1, DUE(KOS_EFFORT, length, 0, visits - 1, 0, length - 1), NULL);
    }
}

static void rows_of_digits(void)
{
    row_of_digits("255 digits", 255, (const uint8_t[]){1, 0, 10, 0, 1, 0, 0, 255, 0, 0});
    row_of_digits("256 digits", 256, (const uint8_t[]){2, 0, 12, 0, 1, 0, 0, 0, 1, 0, 0, 0});
    row_of_digits("4,000 digits", 4000, FOUR_THOUSAND);
    for (int whole = 0; whole <= 1; whole++)
        reads("4,001 digits", filled("", '7', "", 4001), whole, 2500, DUE(KOS_LINE, 0, 0, 0, 0, 0), NULL);
}

/* It is the line's length that gives the version, and not the match's. A on 7+2 needs 33 bytes in version 2. */
static void short_matches(void)
{
    static const uint8_t two[] = {
        2, 0, 33, 0, 4,
        1, 0, 0, 0, 1, 0, 0,
        0, 0, 0, 0, 1, 0, 1,
        1, 0, 2, 0, 3, 0, 0,
        0, 0, 0, 0, 3, 0, 2,
    };
    const uint64_t *due = DUE(KOS_READ, 0, 3, 19, 4, 3), *room = DUE(KOS_ROOM, 3, 3, 19, 4, 3);
    size_t work = KOS_WORK_NEEDED(19, 7, 300);
    TAKE(SHEET_A);
    reads("7+2 and 252 bytes", filled("7+2", 'x', "", 255), 0, 19, due, A_TWO);
    reads("7+2 and 253 bytes", filled("7+2", 'x', "", 256), 0, 19, due, two);
    reads("7+2 and 3,997 bytes", filled("7+2", 'x', "", 4000), 0, 19, due, two);
    const char *line = filled("7+2", 'x', "", 300);
    reads("7+2 and 297 bytes", line, 0, 19, due, two);
    reads("7+2 and 297 bytes, whole", line, 1, 19, DUE(KOS_REST, 3, 3, 19, 0, 3), NULL);
    read_lent(asked("7+2 and 297 bytes, a byte of room short", line, 0, 19, room, NULL), work, 32);
    read_lent(asked("7+2 and 297 bytes, room for version 1", line, 0, 19, room, NULL), work, 25);
    read_lent(asked("7+2 and 297 bytes, no room", line, 0, 19, room, NULL), work, 0);
}

/* A on 7+7+..7: each digit is a D, and an S around it and the S before it. No head where that is too many. */
static void sum_of_digits(const char *name, size_t digits, const uint8_t *head)
{
    static char line[KOS_MOST_LINE + 1];
    size_t length = 2 * digits - 1, visits = 7 * digits + 5;
    memset(line, 0, sizeof line);
    for (size_t i = 0; i < length; i++) line[i] = i % 2 ? '+' : '7';
    TAKE(SHEET_A);
    if (head == NULL) {
        reads(name, line, 1, visits, DUE(KOS_RECORDS, length, length, visits, 1001, length), NULL);
        return;
    }
    uint8_t *at = put_head(head);
    for (size_t start = 0; start < length; start += 2) {
        at = put_record(at, width, 1, start, start + 1, 0);
        at = put_record(at, width, 0, 0, start + 1, start > 0 ? 2 : 1);
    }
    reads(name, line, 1, visits, DUE(KOS_READ, 0, length, visits, 2 * digits, length), stored);
    read_lent(asked(name, line, 1, visits, DUE(KOS_ROOM, length, length, visits, 2 * digits, length), NULL),
              KOS_WORK_NEEDED(visits, 7, length), (size_t)(at - stored) - 1);
}

static void sums_of_digits(void)
{
    sum_of_digits("a sum of 255 bytes", 128, HEAD(1, 5, 5, 1, 0));
    sum_of_digits("a sum of 257 bytes", 129, HEAD(2, 7, 19, 1, 2));
    sum_of_digits("a sum of 999 bytes, 1,000 records", 500, HEAD(2, 27, 93, 3, 232));
    sum_of_digits("a sum of 1,001 bytes, 1,002 records", 501, NULL);
    sum_of_digits("a sum of 3,999 bytes", 2000, NULL);
}

/* The rules from this one on, each but the last only the next. */
static void add_names(size_t rule, size_t last)
{
    for (; rule < last; rule++) add_root(&made, add_node(&made, RULE, rule + 1, 0));
}

/* S <- R*; R <- the next of so many rules, the last 'a'. A record for each rule and turn, and the root's. */
static void row_of_trees(const char *name, size_t rules, size_t turns, const uint8_t *head)
{
    size_t visits = (rules + 2) * (turns + 1);
    begin();
    size_t use = add_node(&made, RULE, 1, 0);
    add_root(&made, add_node(&made, REPETITION, use, 0));
    add_names(1, rules);
    add_root(&made, add_node(&made, RANGE, 'a', 'a'));
    take_made();
    if (head == NULL) {
        const uint64_t *due = DUE(KOS_RECORDS, turns, turns, visits, 1001, turns);
        reads(name, filled("", 'a', "", turns), 1, visits, due, NULL);
        return;
    }
    uint8_t *at = put_head(head);
    for (size_t turn = 0; turn < turns; turn++)
        for (size_t rule = rules; rule > 0; rule--) at = put_record(at, width, rule, turn, turn + 1, rule < rules);
    put_record(at, width, 0, 0, turns, turns);
    const uint64_t *due = DUE(KOS_READ, 0, turns, visits, rules * turns + 1, turns);
    reads(name, filled("", 'a', "", turns), 1, visits, due, stored);
}

static void rows_of_trees(void)
{
    row_of_trees("111 turns, 1,000 records", 9, 111, HEAD(1, 19, 141, 3, 232));
    row_of_trees("125 turns, 1,001 records", 8, 125, NULL);
    row_of_trees("333 turns, 1,000 records", 3, 333, HEAD(2, 27, 93, 3, 232));
    row_of_trees("500 turns, 1,001 records", 2, 500, NULL);
    row_of_trees("999 turns, 1,000 records", 1, 999, HEAD(2, 27, 93, 3, 232));
    row_of_trees("1,000 turns, 1,001 records", 1, 1000, NULL);
}

/* S <- '(' S / R; R <- the next of so many rules, the last [0-9]*. */
static void take_brackets(size_t rules)
{
    begin();
    size_t bracket = add_node(&made, RANGE, '(', '('), itself = add_node(&made, RULE, 0, 0);
    size_t on = add_node(&made, SEQUENCE, bracket, itself), row = add_node(&made, RULE, 1, 0);
    add_root(&made, add_node(&made, CHOICE, on, row));
    add_names(1, rules);
    size_t digit = add_node(&made, RANGE, '0', '9');
    add_root(&made, add_node(&made, REPETITION, digit, 0));
    take_made();
}

/* Behind 169 brackets the range of the row is the open visit number 510 and the rules, with digits or without. */
static void row_far_inside(const char *name, size_t length, const uint8_t *head)
{
    static char brackets[170];
    memset(brackets, '(', 169);
    const char *line = filled(brackets, '7', "", length);
    size_t visits = 683 + 2 * (length - 169);
    uint8_t *at = put_head(head);
    at = put_record(at, width, 2, 169, length, 0);
    at = put_record(at, width, 1, 169, length, 1);
    for (size_t start = 170; start-- > 0;) at = put_record(at, width, 0, start, length, 1);
    for (int whole = 0; whole <= 1; whole++) {
        take_brackets(2);
        reads(name, line, whole, visits, DUE(KOS_READ, 0, length, visits, 172, length), stored);
        reads(name, line, whole, visits - 1, DUE(KOS_EFFORT, length, 0, visits - 1, 0, length - 1), NULL);
        reads(name, line, whole, 700, DUE(KOS_EFFORT, 178, 0, 700, 0, 177), NULL);
        take_brackets(3);
        reads(name, line, whole, 2500, DUE(KOS_DEEP, 169, 0, 683, 0, 169), NULL);
        reads("no digits, 513 open", brackets, whole, 2500, DUE(KOS_DEEP, 169, 0, 683, 0, 169), NULL);
    }
}

static void rows_far_inside(void)
{
    row_far_inside("86 digits far inside", 255, HEAD(1, 3, 97, 0, 172));
    row_far_inside("87 digits far inside", 256, HEAD(2, 4, 185, 0, 172));
    row_far_inside("3,831 digits far inside", 4000, HEAD(2, 4, 185, 0, 172));
}

/* S <- 'a'* D 'x' / 'a'* D 'y'; D <- [0-9]: the row and the D are kept, and asked for again. */
static void kept_far_along(void)
{
    static const uint8_t due[] = {2, 0, 19, 0, 2, 1, 15, 158, 15, 159, 0, 0, 0, 0, 0, 15, 160, 0, 1};
    begin();
    size_t row = add_node(&made, REPETITION, add_node(&made, RANGE, 'a', 'a'), 0), d = add_node(&made, RULE, 1, 0);
    size_t x = add_node(&made, RANGE, 'x', 'x'), y = add_node(&made, RANGE, 'y', 'y');
    size_t first = add_node(&made, SEQUENCE, row, add_node(&made, SEQUENCE, d, x));
    size_t second = add_node(&made, SEQUENCE, row, add_node(&made, SEQUENCE, d, y));
    add_root(&made, add_node(&made, CHOICE, first, second));
    add_root(&made, add_node(&made, RANGE, '0', '9'));
    take_made();
    reads("3,998 a and 7y", filled("", 'a', "7y", 4000), 1, 8009, DUE(KOS_READ, 0, 4000, 8009, 2, 3999), due);
    reads("3,999 a and 7", filled("", 'a', "7", 4000), 1, 8011, DUE(KOS_FAIL, 0, 0, 8011, 0, 4000), NULL);
}

/* S <- S '+' D / '(' 'a'* S / D; D <- [0-9]: S is live at 0 and at 256, and grows at both. */
static void live_256_apart(void)
{
    static const uint8_t due[] = {
        2, 0, 40, 0, 5,
        1, 1, 0, 1, 1, 0, 0,
        0, 1, 0, 1, 1, 0, 1,
        1, 1, 2, 1, 3, 0, 0,
        0, 1, 0, 1, 3, 0, 2,
        0, 0, 0, 1, 3, 0, 1,
    };
    begin();
    size_t s = add_node(&made, RULE, 0, 0), d = add_node(&made, RULE, 1, 0);
    size_t plus = add_node(&made, RANGE, '+', '+'), bracket = add_node(&made, RANGE, '(', '(');
    size_t row = add_node(&made, REPETITION, add_node(&made, RANGE, 'a', 'a'), 0);
    size_t longer = add_node(&made, SEQUENCE, s, add_node(&made, SEQUENCE, plus, d));
    size_t inside = add_node(&made, SEQUENCE, bracket, add_node(&made, SEQUENCE, row, s));
    add_root(&made, add_node(&made, CHOICE, longer, add_node(&made, CHOICE, inside, d)));
    add_root(&made, add_node(&made, RANGE, '0', '9'));
    take_made();
    reads("live 256 apart", filled("(", 'a', "7+2", 259), 1, 1092, DUE(KOS_READ, 0, 259, 1092, 5, 259), due);
}

/* S <- 'a'* T; T <- '(' T / [0-9]: behind 170 brackets 512 visits are open. */
static void deep_far_along(void)
{
    static char brackets[201];
    memset(brackets, '(', 200);
    begin();
    size_t row = add_node(&made, REPETITION, add_node(&made, RANGE, 'a', 'a'), 0), t = add_node(&made, RULE, 1, 0);
    size_t bracket = add_node(&made, RANGE, '(', '('), digit = add_node(&made, RANGE, '0', '9');
    size_t inside = add_node(&made, SEQUENCE, bracket, t);
    add_root(&made, add_node(&made, SEQUENCE, row, t));
    add_root(&made, add_node(&made, CHOICE, inside, digit));
    take_made();
    reads("300 a and 200 brackets", filled("", 'a', brackets, 500), 0, 2500, DUE(KOS_DEEP, 470, 0, 1284, 0, 469), NULL);
}

/* LINE comes before ALLOW, and ALLOW before WORK: 4,000 digits with the largest allowance need 20,018,052 numbers. */
static void limits_in_order(void)
{
    const uint64_t *work = DUE(KOS_WORK, 0, 0, 0, 0, 0), *allow = DUE(KOS_ALLOW, 0, 0, 0, 0, 0);
    const uint64_t *too_long = DUE(KOS_LINE, 0, 0, 0, 0, 0), *due = DUE(KOS_READ, 0, 4000, 8002, 1, 4000);
    const char *line = filled("", '7', "", 4001);
    TAKE(DIGITS);
    read_lent(asked("4,001 digits, allowance 0", line, 1, 0, too_long, NULL), 0, 0);
    read_lent(asked("4,001 digits, allowance 5,000,001", line, 1, 5000001, too_long, NULL), 0, 0);
    read_lent(asked("4,001 digits, allowance 5,000,000", line, 1, 5000000, too_long, NULL), 0, 0);
    line = filled("", '7', "", 4000);
    read_lent(asked("4,000 digits, allowance 5,000,001", line, 1, 5000001, allow, NULL), 0, 0);
    read_lent(asked("4,000 digits, allowance 5,000,000, nothing lent", line, 1, 5000000, work, NULL), 0, 0);
    read_lent(asked("4,000 digits, a working number short", line, 1, 8002, work, NULL), 50059, 12);
    read_lent(asked("4,000 digits, allowance 5,000,000, a number short", line, 1, 5000000, work, NULL), 20018051, 12);
    read_lent(asked("4,000 digits, allowance 5,000,000", line, 1, 5000000, due, FOUR_THOUSAND), 20018052, 12);
}

static void cases(void)
{
    rows_of_digits();
    short_matches();
    sums_of_digits();
    rows_of_trees();
    rows_far_inside();
    kept_far_along();
    live_256_apart();
    deep_far_along();
    limits_in_order();
}

int main(void)
{
    return on_both_sides(cases);
}
