/*
 * A pool in memory of its own: a parent and its child are added, a cost is set, one is refused; templates are made with a delta and with a
 * withheld entry; then one is removed, and all are gone.
 */
#include "../yaghrudil.h"

#include <inttypes.h>
#include <stdio.h>

#define SLOTS 8

static uint64_t table[YAGHRUDIL_TABLE_WORDS(SLOTS)];
#define WORDS (sizeof(table) / sizeof(table[0]))

/* Two txids in stored order, one behind the other, as a list of parents has them. */
static const uint8_t txids[2][YAGHRUDIL_TXID_BYTES] = {{1}, {2}};

/* Says what a call answered; whether it is what was expected. */
static int said(const char *call, uint64_t answer, uint64_t expected)
{
    printf("%s: %" PRIu64 ", %s\n", call, answer, yaghrudil_text(answer));
    return answer == expected;
}

static int said_slot(const char *call, yaghrudil_placed placed, uint64_t expected)
{
    int right = said(call, placed.answer, expected);
    if (placed.answer == YAGHRUDIL_SUCCESS)
        printf("  slot %zu\n", placed.slot);
    return right;
}

static int show_totals(size_t entries, uint64_t weight)
{
    yaghrudil_totals totals = yaghrudil_pool_totals(table, WORDS);
    int right = said("totals", totals.answer, YAGHRUDIL_SUCCESS);
    printf("  %zu entries, weight %" PRIu64 "\n", totals.entries, totals.weight);
    return right && totals.entries == entries && totals.weight == weight;
}

static int fill(void)
{
    yaghrudil_limits limits = {.count = 64, .size = 101000, .bytes_per_sigop = 20};
    yaghrudil_limits wrong = {.count = 65, .size = 101000, .bytes_per_sigop = 20};
    return said("make with a count limit of 65", yaghrudil_pool_make(table, WORDS, wrong), YAGHRUDIL_OUT_OF_RANGE)
        && said("make", yaghrudil_pool_make(table, WORDS, limits), YAGHRUDIL_SUCCESS)
        && said_slot("add a parent", yaghrudil_pool_add(table, WORDS, txids[0], 100, 400, 4, txids[0], 0), YAGHRUDIL_SUCCESS)
        && said_slot("add its child", yaghrudil_pool_add(table, WORDS, txids[1], 900, 600, 4, txids[0], 32), YAGHRUDIL_SUCCESS)
        && said_slot("add it again", yaghrudil_pool_add(table, WORDS, txids[1], 900, 600, 4, txids[0], 32), YAGHRUDIL_TXID_PRESENT)
        && said_slot("set the child's cost", yaghrudil_pool_set_cost(table, WORDS, txids[1], 8), YAGHRUDIL_SUCCESS)
        && show_totals(2, 1000);
}

/* Selects with a delta for the one that stands alone and a mark for the parent, and says which slots went out. */
static int selects(int64_t delta, uint8_t mark, size_t count, const size_t *expected)
{
    int64_t deltas[SLOTS] = {0, 0, delta};
    uint8_t withheld[SLOTS] = {mark};
    yaghrudil_terms terms = {.budget = 1200, .reserve = 400, .minimum = 1000};
    size_t room[SLOTS] = {0};
    yaghrudil_reply reply = yaghrudil_pool_template(table, WORDS, deltas, SLOTS, withheld, SLOTS, terms, room, SLOTS);
    int right = said("template", reply.answer, YAGHRUDIL_SUCCESS) && reply.written == count;
    printf("  slots");
    for (size_t k = 0; k < reply.written; k++) {
        printf(" %zu", room[k]);
        right = right && room[k] == expected[k];
    }
    printf("\n");
    return right;
}

/* Parent and child together pay more than the one that stands alone, until a delta lifts it; without their parent the child can't go. */
static int templates(void)
{
    static const uint8_t alone[YAGHRUDIL_TXID_BYTES] = {3};
    static const size_t family[] = {0, 1}, single[] = {2};
    return said_slot("add one that stands alone", yaghrudil_pool_add(table, WORDS, alone, 500, 600, 4, alone, 0), YAGHRUDIL_SUCCESS)
        && selects(0, 0, 2, family)
        && selects(400, 0, 1, single)
        && selects(0, 1, 1, single)
        && said_slot("remove it", yaghrudil_pool_remove(table, WORDS, alone), YAGHRUDIL_SUCCESS);
}

static int empty(void)
{
    return said_slot("remove the parent", yaghrudil_pool_remove(table, WORDS, txids[0]), YAGHRUDIL_SUCCESS)
        && said_slot("remove it again", yaghrudil_pool_remove(table, WORDS, txids[0]), YAGHRUDIL_TXID_ABSENT)
        && show_totals(1, 600)
        && said("clear", yaghrudil_pool_clear(table, WORDS), YAGHRUDIL_SUCCESS)
        && show_totals(0, 0);
}

/* A word that no call wrote: each call but make refuses the table from then on. */
static int damage(void)
{
    table[WORDS - 1] = 1;
    return said("clear a table that was written into", yaghrudil_pool_clear(table, WORDS), YAGHRUDIL_TABLE_ILL_FORMED);
}

int main(void)
{
    return !(fill() && templates() && empty() && damage());
}
