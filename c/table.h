/* Putting a table together, as in document 01: nodes first, then the roots of the rules in their order. */
#ifndef TABLE_H
#define TABLE_H

#include <string.h>

#include "koskorbelu.h"

struct table {
    uint8_t nodes[5 * KOS_MOST_NODES];
    uint8_t roots[2 * KOS_MOST_RULES];
    size_t node_count, rule_count;
    uint8_t bytes[KOS_MOST_TABLE];
    size_t length;
};

enum { EMPTY, RANGE, RULE, SEQUENCE, CHOICE, NOT, REPETITION };

static void put_two(uint8_t *at, size_t number)
{
    at[0] = (uint8_t)(number >> 8);
    at[1] = (uint8_t)number;
}

/* Gives the node's number. */
static size_t add_node(struct table *table, uint8_t kind, size_t a, size_t b)
{
    uint8_t *at = table->nodes + 5 * table->node_count;
    at[0] = kind;
    put_two(at + 1, a);
    put_two(at + 3, b);
    return table->node_count++;
}

static void add_root(struct table *table, size_t node)
{
    put_two(table->roots + 2 * table->rule_count++, node);
}

static void finish(struct table *table)
{
    size_t roots = 2 * table->rule_count, nodes = 5 * table->node_count;
    table->length = 7 + roots + nodes;
    table->bytes[0] = 1;
    put_two(table->bytes + 1, table->length);
    put_two(table->bytes + 3, table->node_count);
    put_two(table->bytes + 5, table->rule_count);
    memcpy(table->bytes + 7, table->roots, roots);
    memcpy(table->bytes + 7 + roots, table->nodes, nodes);
}

#endif
