/*
 * stack.c: how many bytes of stack a call takes. Each call is made on a stack of its own that was painted before; the
 * lowest byte that lost its paint tells how deep the call went. Fails if one goes deeper than koskorbelu.h says, or if
 * the longest lines go deeper than the longest of version 1.
 */
#define _DEFAULT_SOURCE /* for MAP_ANONYMOUS */
#include <pthread.h>
#include <stdio.h>
#include <stdlib.h>
#include <sys/mman.h>

#include "table.h"

#define STACK (1024 * 1024)
#define PAINT 0xA5

/* What the calls are lent. */
static struct table table;
static uint8_t line[KOS_MOST_LINE];
static size_t line_length;
static uint32_t work[KOS_WORK_NEEDED(KOS_MOST_ALLOWANCE, KOS_MOST_NODES, KOS_MOST_LINE)];
static uint8_t room[KOS_MOST_STORED];
static uint64_t answer[KOS_REPORT_NUMBERS];

static void call_report(void)
{
    kos_report(table.bytes, table.length, answer);
}

static void call_read(void)
{
    kos_read_whole(table.bytes, table.length, line, line_length, KOS_MOST_ALLOWANCE, work, sizeof work / sizeof work[0],
                   room, sizeof room, answer);
}

typedef void call(void);
static uint8_t *top;

static void *start(void *given)
{
    uint8_t here = 0;
    top = &here;
    (*(call **)given)();
    return NULL;
}

static void must(int holds, const char *what)
{
    if (holds) return;
    printf("%s\n", what);
    exit(1);
}

/* The bytes that a call takes, the frame that makes it included. */
static size_t depth_of(call *function)
{
    uint8_t *stack = mmap(NULL, STACK, PROT_READ | PROT_WRITE, MAP_PRIVATE | MAP_ANONYMOUS, -1, 0);
    pthread_attr_t own;
    pthread_t thread;
    must(stack != MAP_FAILED, "no stack");
    memset(stack, PAINT, STACK);
    must(pthread_attr_init(&own) == 0 && pthread_attr_setstack(&own, stack, STACK) == 0, "no stack of its own");
    must(pthread_create(&thread, &own, start, &function) == 0, "no thread");
    pthread_join(thread, NULL);
    pthread_attr_destroy(&own);
    uint8_t *lowest = stack;
    while (*lowest == PAINT) lowest++;
    size_t depth = (size_t)(top - lowest);
    munmap(stack, STACK);
    return depth;
}

static size_t deepest;

/* The code tells that the call was the one meant. */
static void measure(const char *what, call *function, uint64_t code)
{
    function(); /* what the system does at a first call is then done */
    size_t depth = depth_of(function);
    if (depth > deepest) deepest = depth;
    printf("%8zu%6zu  %s\n", depth, line_length, what);
    must(answer[KOS_AT_CODE] == code, "not the code that is due");
}

static void begin(size_t length)
{
    memset(&table, 0, sizeof table);
    memset(line, 'a', sizeof line);
    line_length = length;
}

/* Nodes of one kind, each over the one before and, where it has two children, beside node 0: 512 visits are open. */
static const struct chain {
    const char *name;
    uint8_t kind, bottom;
    int is_second;
    uint64_t code;
} chains[] = {
    {"512 nots, free", NOT, EMPTY, 0, KOS_FAIL},
    {"512 sequences by the first child, free", SEQUENCE, EMPTY, 0, KOS_REST},
    {"512 sequences by the second child, free", SEQUENCE, EMPTY, 1, KOS_REST},
    {"512 choices by the first child, free", CHOICE, RANGE, 0, KOS_FAIL},
    {"512 choices by the second child, free", CHOICE, RANGE, 1, KOS_FAIL},
    {"512 nots over the live use", NOT, RULE, 0, KOS_REST},
    {"512 sequences over the live use", SEQUENCE, RULE, 0, KOS_FAIL},
    {"512 choices by the first child, over the live use", CHOICE, RULE, 0, KOS_FAIL},
    {"512 choices by the second child, over the live use", CHOICE, RULE, 1, KOS_FAIL},
};

static void measure_chain(const struct chain *chain, size_t length)
{
    begin(length);
    size_t top_node = add_node(&table, chain->bottom, 0, 0);
    while (table.node_count < KOS_MOST_NODES)
        top_node = add_node(&table, chain->kind, chain->is_second ? 0 : top_node, chain->is_second ? top_node : 0);
    add_root(&table, top_node);
    finish(&table);
    measure(chain->name, call_read, chain->code);
}

/* S <- !!..!R with 509 nots; R <- 'b' / R: of the 512 open visits the last is one of a range, where nothing is kept. */
static void range_at_the_bottom(size_t length)
{
    begin(length);
    size_t byte = add_node(&table, RANGE, 'b', 'b'), use = add_node(&table, RULE, 1, 0);
    size_t root = add_node(&table, CHOICE, byte, use), top_node = use;
    while (table.node_count < KOS_MOST_NODES) top_node = add_node(&table, NOT, top_node, 0);
    add_root(&table, top_node);
    add_root(&table, root);
    finish(&table);
    call_report();
    must(answer[KOS_AT_FREE] == 0, "not as free as is meant");
    measure("509 nots over a live use, over a range", call_read, KOS_REST);
}

/* S <- !!..!R with 508 nots; R <- R 'a' / 'a': with 512 visits open the use at the bottom grows to the line's end. */
static void growth_at_the_bottom(size_t length)
{
    begin(length);
    size_t byte = add_node(&table, RANGE, 'a', 'a'), use = add_node(&table, RULE, 1, 0);
    size_t root = add_node(&table, CHOICE, add_node(&table, SEQUENCE, use, byte), byte), top_node = use;
    while (table.node_count < KOS_MOST_NODES) top_node = add_node(&table, NOT, top_node, 0);
    add_root(&table, top_node);
    add_root(&table, root);
    finish(&table);
    measure("508 nots over a use that grows by each byte", call_read, KOS_REST);
    must(answer[KOS_AT_FURTHEST] == length, "not as far as is meant");
}

/* A free sheet keeps answers. In another a use becomes live if its rule is left-recursive, and is tried once if not. */
enum sort { FREE, ONCE, LIVE };
#define NAME(what, sort) \
    (sort == FREE ? what " to 512, free" : sort == ONCE ? what " to 512, none live" : what " to 512, all live")

/* An 'a'. Where nothing shall be kept, or else a rule that begins with itself: this one, the last. */
static size_t byte_or_rule(enum sort sort, size_t last)
{
    size_t byte = add_node(&table, RANGE, 'a', 'a');
    return sort == FREE ? byte : add_node(&table, CHOICE, byte, add_node(&table, RULE, last, 0));
}

/* The node; and where rule 0 shall be live, a use of it that is come to only if the node fails. */
static size_t or_rule_0(enum sort sort, size_t node, size_t use)
{
    return sort == LIVE ? add_node(&table, CHOICE, node, use) : node;
}

static void must_be(enum sort sort)
{
    call_report();
    must(answer[KOS_AT_FREE] == (sort == FREE), "not as free as is meant");
    must((answer[KOS_AT_LOWEST] == 0) == (sort == LIVE), "not as live as is meant");
}

static void end(enum sort sort)
{
    if (sort != FREE) add_root(&table, add_node(&table, RULE, table.rule_count, 0));
    finish(&table);
    must_be(sort);
}

/* T <- 'a' T / empty, three visits deeper with each byte. */
static void right_recursion(enum sort sort, size_t length)
{
    begin(length);
    size_t byte = byte_or_rule(sort, 1), use = add_node(&table, RULE, 0, 0);
    size_t longer = add_node(&table, SEQUENCE, byte, use);
    size_t other = or_rule_0(sort, add_node(&table, EMPTY, 0, 0), use);
    add_root(&table, add_node(&table, CHOICE, longer, other));
    end(sort);
    measure(NAME("right recursion", sort), call_read, KOS_DEEP);
    must(answer[KOS_AT_FURTHEST] > 0 && answer[KOS_AT_FURTHEST] <= answer[KOS_AT_PLACE], "not as far as is meant");
}

/* S <- ('a' S)*, three visits deeper with each byte: in each turn a repetition is open inside the one before. */
static void repetitions(enum sort sort, size_t length)
{
    begin(length);
    size_t byte = byte_or_rule(sort, 1), use = add_node(&table, RULE, 0, 0);
    add_root(&table, add_node(&table, REPETITION, add_node(&table, SEQUENCE, byte, use), 0));
    end(sort);
    measure(NAME("repetitions", sort), call_read, KOS_DEEP);
}

/*
 * (..(('a'* 'a')* 'a'* 'a')* 'a'* 'a' ..)*, each of 512 nodes below the next: every second is a repetition, and the
 * lowest takes a turn for each byte while 512 visits are open. The 'a' behind it fails, so that each above takes none.
 */
static void row_at_the_bottom(enum sort sort, size_t length)
{
    begin(length);
    size_t child = add_node(&table, RANGE, 'a', 'a'), use = 0;
    if (sort != FREE) {
        use = add_node(&table, RULE, 1, 0);
        child = add_node(&table, CHOICE, child, use);
    }
    size_t top = add_node(&table, REPETITION, child, 0);
    size_t second = top = add_node(&table, SEQUENCE, top, child);
    while (table.node_count + 2 < KOS_MOST_NODES)
        top = add_node(&table, SEQUENCE, add_node(&table, REPETITION, top, 0), second);
    add_root(&table, add_node(&table, REPETITION, top, 0));
    if (sort != FREE) add_root(&table, use);
    finish(&table);
    must_be(sort);
    must(table.node_count == KOS_MOST_NODES, "not 512 nodes");
    measure(NAME("repetitions over a row of all bytes", sort), call_read, KOS_REST);
    must(answer[KOS_AT_FURTHEST] == length, "not as far as is meant");
}

/* A ring of 62 rules, each the next one; the last goes one byte on. Nearly every open visit is a use. */
static void ring(enum sort sort, size_t length)
{
    begin(length);
    for (size_t rule = 1; rule < 62; rule++) add_root(&table, add_node(&table, RULE, rule, 0));
    size_t byte = byte_or_rule(sort, 62), first = add_node(&table, RULE, 0, 0);
    add_root(&table, or_rule_0(sort, add_node(&table, SEQUENCE, byte, first), first));
    end(sort);
    measure(NAME("uses", sort), call_read, KOS_DEEP);
}

/* So many 'a' one behind the other. */
static size_t bytes(size_t count)
{
    size_t byte = add_node(&table, RANGE, 'a', 'a'), word = byte;
    while (--count > 0) word = add_node(&table, SEQUENCE, byte, word);
    return word;
}

/* 1,000 records, in the version of the line. */
static void measure_records(const char *what)
{
    measure(what, call_read, KOS_READ);
    must(answer[KOS_AT_RECORDS] == KOS_MOST_RECORDS, "not 1,000 records");
    must(room[0] == KOS_STORED_VERSION(line_length), "not the line's version");
}

/* S <- W 'a' / 'a'; W <- V; and so on back to S, with a word for 'a': so many records a word, each inside the next. */
static void nested_records(size_t rules, size_t word_length)
{
    begin(((KOS_MOST_RECORDS - 1) / rules + 1) * word_length);
    size_t word = bytes(word_length), use = add_node(&table, RULE, 1 % rules, 0);
    size_t longer = add_node(&table, SEQUENCE, use, word);
    add_root(&table, add_node(&table, CHOICE, longer, word));
    for (size_t rule = 1; rule < rules; rule++) add_root(&table, add_node(&table, RULE, (rule + 1) % rules, 0));
    finish(&table);
    measure_records("1,000 records, each inside the next");
}

/* S <- 'aaaa' D*; D <- 'aaaa': of the records 999 are made by one row, which version 1 has no line for. */
static void records_of_a_row(void)
{
    begin(KOS_MOST_LINE);
    size_t word = bytes(KOS_MOST_LINE / KOS_MOST_RECORDS);
    size_t row = add_node(&table, REPETITION, add_node(&table, RULE, 1, 0), 0);
    add_root(&table, add_node(&table, SEQUENCE, word, row));
    add_root(&table, word);
    finish(&table);
    measure_records("1,000 records, 999 in a row");
}

/*
 * S <- !!('b' T) R T 'a'*; T <- R R .. R ('b' T / empty), 498 R; R <- empty. Of a line that begins with b the T at 1 is
 * kept before the T at 0 is visited, so that 1,000 records stand one behind the other. A writer that called itself for
 * each would go that deep.
 */
static void records_in_a_row(size_t length)
{
    begin(length);
    line[0] = 'b';
    size_t byte = add_node(&table, RANGE, 'b', 'b'), nothing = add_node(&table, EMPTY, 0, 0);
    size_t t = add_node(&table, RULE, 1, 0), r = add_node(&table, RULE, 2, 0);
    size_t on = add_node(&table, SEQUENCE, byte, t);
    size_t row = add_node(&table, CHOICE, on, nothing);
    for (size_t i = 0; i < 498; i++) row = add_node(&table, SEQUENCE, r, row);
    size_t ahead = add_node(&table, NOT, add_node(&table, NOT, on, 0), 0);
    size_t rest = add_node(&table, REPETITION, add_node(&table, RANGE, 'a', 'a'), 0);
    size_t all = add_node(&table, SEQUENCE, r, add_node(&table, SEQUENCE, t, rest));
    add_root(&table, add_node(&table, SEQUENCE, ahead, all));
    add_root(&table, row);
    add_root(&table, nothing);
    finish(&table);
    measure_records("1,000 records, each behind the next");
}

/* 64 rules of 8 nodes, each with the next one at its left end; all may be empty, which is learnt one rule at a time. */
static void full_report(void)
{
    begin(0);
    for (size_t rule = 0; rule < KOS_MOST_RULES; rule++) {
        size_t next = (rule + 1) % KOS_MOST_RULES;
        size_t use = add_node(&table, RULE, next, 0), again = add_node(&table, RULE, next, 0);
        size_t twice = add_node(&table, SEQUENCE, use, again);
        size_t byte = add_node(&table, RANGE, 'a', 'a');
        size_t some = next == 0 ? add_node(&table, REPETITION, byte, 0) : add_node(&table, RANGE, 'b', 'b');
        size_t either = add_node(&table, CHOICE, twice, byte);
        add_root(&table, add_node(&table, CHOICE, add_node(&table, CHOICE, some, either), use));
    }
    finish(&table);
    measure("the report on a full table", call_report, KOS_READ);
    must(answer[KOS_AT_HOW_MANY] == KOS_MOST_RULES, "not all rules left-recursive");
}

/* 64 rules of 8 nodes, each with the next one behind a byte, and the last with itself: rule 0 reaches them all. */
static void full_reach(void)
{
    begin(0);
    for (size_t rule = 0; rule < KOS_MOST_RULES; rule++) {
        int is_last = rule == KOS_MOST_RULES - 1;
        size_t use = add_node(&table, RULE, is_last ? rule : rule + 1, 0), byte = add_node(&table, RANGE, 'a', 'a');
        size_t top = is_last ? use : add_node(&table, SEQUENCE, byte, use);
        while (table.node_count < 8 * (rule + 1)) top = add_node(&table, CHOICE, byte, top);
        add_root(&table, top);
    }
    finish(&table);
    measure("the report on a full table, by what rule 0 reaches", call_report, KOS_READ);
    must(answer[KOS_AT_HOW_MANY] == 1 && answer[KOS_AT_FREE] == 0, "not the last rule reached");
}

/* All that reads a line of so many bytes. */
static void readings(size_t length)
{
    for (size_t i = 0; i < sizeof chains / sizeof chains[0]; i++) measure_chain(&chains[i], length);
    range_at_the_bottom(length);
    growth_at_the_bottom(length);
    for (enum sort sort = FREE; sort <= ONCE; sort++) {
        repetitions(sort, length);
        row_at_the_bottom(sort, length);
    }
    for (enum sort sort = FREE; sort <= LIVE; sort++) {
        right_recursion(sort, length);
        ring(sort, length);
    }
}

int main(void)
{
    printf("   bytes  line  of stack\n");
    full_report();
    full_reach();
    readings(KOS_MOST_LINE_OF_VERSION_1);
    nested_records(9, 1);
    records_in_a_row(KOS_MOST_LINE_OF_VERSION_1);
    size_t shorter = deepest;
    readings(KOS_MOST_LINE);
    nested_records(1, 4);
    records_in_a_row(KOS_MOST_LINE);
    records_of_a_row();
    printf("%8zu%6d  at most\n", shorter, KOS_MOST_LINE_OF_VERSION_1);
    printf("%8zu%6d  at most\n", deepest, KOS_MOST_LINE);
    must(deepest == shorter, "deeper with a longer line");
#ifdef __x86_64__
    must(deepest <= KOS_STACK, "more than KOS_STACK of koskorbelu.h");
#endif
    return 0;
}
