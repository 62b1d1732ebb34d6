/*
 * Yaghrudil for C: the order in which a cluster of transactions should be mined, the chunks of it that belong together, a pool of
 * transactions in memory that the caller lends, and block templates out of it.
 *
 * Link with libyaghrudil.a, which `rt lib`, run in crates/yaghrudil, writes to out/ there for x86-64 (x86-64-v2).
 *
 * What is lent
 *
 * Every array is lent as a pointer and the number of its elements, a txid as a pointer to 32 bytes. For the caller this means:
 *
 *   - a pointer is aligned for its elements and is not null, even where the count is 0;
 *   - all of the counted elements are there and have values;
 *   - the array that a call may write to (room, order, table) overlaps none of the others;
 *   - no other thread writes to a lent array, or reads the written one, during the call.
 *
 * A call checks everything else itself. All memory stays the caller's: no call allocates, frees, or keeps a pointer, or anything else,
 * between calls. Calls on different memory may run at the same time.
 *
 * What is answered
 *
 * Each call answers a number, by itself or as the first field of a struct:
 *
 *   - on success it is 0, and of the array that the call writes to only what its comment says is new;
 *   - on a refusal it is one of the numbers below, all other fields of the answer are 0, and all lent memory is as it was.
 *
 * Where several refusals would do, the one that stands first in the list of the call is given.
 *
 * Units
 *
 * Fees are in satoshi. Sizes and weights are in weight units (BIP 141), virtual sizes in vbytes: weight / 4, rounded up. A feerate is in
 * satoshi per 1,000 vbytes. Sigop cost is BIP 141's, in which a legacy sigop counts 4.
 */
#ifndef YAGHRUDIL_H
#define YAGHRUDIL_H

#include <stddef.h>
#include <stdint.h>

#ifdef __cplusplus
extern "C" {
static_assert(sizeof(size_t) == 8, "Yaghrudil counts and positions are 64-bit");
#else
_Static_assert(sizeof(size_t) == 8, "Yaghrudil counts and positions are 64-bit");
#endif

/* The version of this header and of the archive that it describes. */
#define YAGHRUDIL_VERSION_MAJOR 0
#define YAGHRUDIL_VERSION_MINOR 2
#define YAGHRUDIL_VERSION_PATCH 0
#define YAGHRUDIL_VERSION "0.2.0"

/* ---- Limits ---- */

/* The most members of a cluster. */
#define YAGHRUDIL_MEMBERS_MAX 64

/* The ends of the range of a cluster member's fee. */
#define YAGHRUDIL_FEE_MAX INT64_C(4200000000000000)
#define YAGHRUDIL_FEE_MIN (-YAGHRUDIL_FEE_MAX)

/* The most slots of a pool; the fewest are 1. */
#define YAGHRUDIL_SLOTS_MAX 1024

/* The words of a pool's table of that many slots, 1 to YAGHRUDIL_SLOTS_MAX. */
#define YAGHRUDIL_TABLE_WORDS(slots) (4 + 39 * (size_t)(slots))

/* The bytes of a txid. */
#define YAGHRUDIL_TXID_BYTES 32

/* The highest fee of a pool's entry, which is at least 0, and the ends of the range of a delta. */
#define YAGHRUDIL_POOL_FEE_MAX INT64_C(2100000000000000)
#define YAGHRUDIL_DELTA_MAX YAGHRUDIL_POOL_FEE_MAX
#define YAGHRUDIL_DELTA_MIN (-YAGHRUDIL_DELTA_MAX)

/* The ends of the range of an entry's raw weight. */
#define YAGHRUDIL_WEIGHT_MIN 1
#define YAGHRUDIL_WEIGHT_MAX 4000000

/* The highest count limit and the highest size limit of a pool's clusters, in members and in vbytes; the lowest of each is 1. */
#define YAGHRUDIL_COUNT_LIMIT_MAX 64
#define YAGHRUDIL_SIZE_LIMIT_MAX 101000

/* The sigop cost that a block may have, the reserve included. */
#define YAGHRUDIL_BLOCK_SIGOPS_MAX 80000

/* ---- Answers ---- */

#define YAGHRUDIL_SUCCESS 0           /* done */
#define YAGHRUDIL_LENGTHS_DIFFER 1    /* arrays have different counts, or txids are not whole 32 bytes */
#define YAGHRUDIL_TOO_MANY_MEMBERS 2  /* more than YAGHRUDIL_MEMBERS_MAX members */
#define YAGHRUDIL_OUT_OF_RANGE 3      /* a number is outside its range */
#define YAGHRUDIL_CYCLE 4             /* following parents from some member leads through another back to it */
#define YAGHRUDIL_NOT_AN_ORDER 5      /* the order does not list every position exactly once */
#define YAGHRUDIL_TXID_PRESENT 6      /* the txid is already in the pool */
#define YAGHRUDIL_NO_SLOT_FREE 7      /* the pool is full */
#define YAGHRUDIL_CLUSTER_TOO_MANY 8  /* the parents' clusters together, plus one, pass the count limit */
#define YAGHRUDIL_CLUSTER_TOO_LARGE 9 /* their raw weight with the new one, as virtual size, passes the size limit */
#define YAGHRUDIL_TXID_ABSENT 10      /* the txid is not in the pool */
#define YAGHRUDIL_ROOM_TOO_SHORT 11   /* the room has fewer elements than the cluster has members, or the pool entries */
#define YAGHRUDIL_TABLE_ILL_FORMED 12 /* the table is not one that the calls of a pool leave */
#define YAGHRUDIL_INPUT_ILL_FORMED 13 /* a text is not of its form: an answer of the programs, and of no call below */

/* An answer in words; the text is constant and belongs to nobody. */
static inline const char *yaghrudil_text(uint64_t answer)
{
    switch (answer) {
    case YAGHRUDIL_SUCCESS: return "done";
    case YAGHRUDIL_LENGTHS_DIFFER: return "lengths differ, or txids are not whole 32 bytes";
    case YAGHRUDIL_TOO_MANY_MEMBERS: return "the cluster has more than 64 members";
    case YAGHRUDIL_OUT_OF_RANGE: return "a number is out of its range";
    case YAGHRUDIL_CYCLE: return "the parents form a cycle";
    case YAGHRUDIL_NOT_AN_ORDER: return "the order does not list each position once";
    case YAGHRUDIL_TXID_PRESENT: return "the txid is already in the pool";
    case YAGHRUDIL_NO_SLOT_FREE: return "the pool has no slot free";
    case YAGHRUDIL_CLUSTER_TOO_MANY: return "the cluster would pass the count limit";
    case YAGHRUDIL_CLUSTER_TOO_LARGE: return "the cluster would pass the size limit";
    case YAGHRUDIL_TXID_ABSENT: return "the txid is not in the pool";
    case YAGHRUDIL_ROOM_TOO_SHORT: return "the room is too short";
    case YAGHRUDIL_TABLE_ILL_FORMED: return "the pool's table is ill-formed";
    case YAGHRUDIL_INPUT_ILL_FORMED: return "the input is ill-formed";
    default: return "an answer that this header does not know";
    }
}

/* ---- A cluster ----
 *
 * A cluster has n members, 0 to 64, which are named by their positions 0 to n - 1 in three arrays of n elements each:
 *
 *   fees     a member's fee, from YAGHRUDIL_FEE_MIN to YAGHRUDIL_FEE_MAX;
 *   sizes    a member's size, any 64-bit number; sums of sizes stop at 2^64 - 1;
 *   parents  one word a member: bit p of word i says that p is a parent of i. Bit i of word i and the bits at n and above are ignored.
 *
 * These calls use up to some kilobytes of stack.
 */

typedef struct yaghrudil_reply {
    uint64_t answer; /* one of the numbers above */
    size_t written;  /* how many elements from the start of the written array are new; 0 on a refusal */
} yaghrudil_reply;

/*
 * Orders a cluster: writes its n positions to the start of the room, every parent before its children.
 *
 * Answers 0 with `written` n, or else refuses with the first that holds of: YAGHRUDIL_LENGTHS_DIFFER, YAGHRUDIL_TOO_MANY_MEMBERS,
 * YAGHRUDIL_ROOM_TOO_SHORT, YAGHRUDIL_OUT_OF_RANGE (a fee), YAGHRUDIL_CYCLE.
 */
yaghrudil_reply yaghrudil_linearize(
    const int64_t *fees, size_t fees_count,
    const uint64_t *sizes, size_t sizes_count,
    const uint64_t *parents, size_t parents_count,
    size_t *room, size_t room_count);

/*
 * Improves an order in place. It has to list each position once, but parents need not stand before their children.
 *
 * Answers 0 with `written` n, or else refuses with the first that holds of: YAGHRUDIL_LENGTHS_DIFFER, YAGHRUDIL_TOO_MANY_MEMBERS,
 * YAGHRUDIL_OUT_OF_RANGE (a fee), YAGHRUDIL_CYCLE, YAGHRUDIL_NOT_AN_ORDER. An order of another length than n is refused as the last.
 */
yaghrudil_reply yaghrudil_post_linearize(
    const int64_t *fees, size_t fees_count,
    const uint64_t *sizes, size_t sizes_count,
    const uint64_t *parents, size_t parents_count,
    size_t *order, size_t order_count);

/*
 * Cuts a list of members into chunks: writes how many members each chunk has to the start of the room. The fees and sizes stand in
 * the order in which the members are to be mined, as with the fee of position order[k] at k; there are no parents.
 *
 * Answers 0 with `written` the number of chunks, or else refuses with the first that holds of: YAGHRUDIL_LENGTHS_DIFFER,
 * YAGHRUDIL_TOO_MANY_MEMBERS, YAGHRUDIL_ROOM_TOO_SHORT (there must be room for n chunks), YAGHRUDIL_OUT_OF_RANGE (a fee).
 */
yaghrudil_reply yaghrudil_chunk_lengths(
    const int64_t *fees, size_t fees_count,
    const uint64_t *sizes, size_t sizes_count,
    size_t *room, size_t room_count);

/* ---- A pool ----
 *
 * A pool is a table of 64-bit words that the caller owns: YAGHRUDIL_TABLE_WORDS(n) of them for n slots. yaghrudil_pool_make makes a pool of
 * whatever stood there, and from then on only the calls below should write it. They test the whole table first, and refuse with
 * YAGHRUDIL_TABLE_ILL_FORMED what they would not have left. A copy of the words is a copy of the pool; words that are stored and loaded
 * again, on a machine of the same byte order, are the same pool.
 *
 * A transaction is an entry: its txid, fee, raw weight and sigop cost, and its links with its parents and children in the pool. It stands
 * in a slot, from 0 on, which add answers and which it keeps until it is removed. A slot that was freed is taken again by another entry.
 * Entries that are linked, by however many steps, are a cluster.
 *
 * A txid is 32 bytes in the order in which they are hashed and stored, as an input's outpoint has them; the hexadecimal digits that a node
 * displays have the bytes the other way round. Parents are txids one behind the other, and their count is of bytes: 32 for each.
 *
 * These calls use up to 24 kilobytes of stack, and yaghrudil_pool_template up to 300: it should not run on a thread with a small stack.
 */

/* What yaghrudil_pool_make stores. */
typedef struct yaghrudil_limits {
    uint64_t count;           /* the most entries of a cluster, 1 to YAGHRUDIL_COUNT_LIMIT_MAX */
    uint64_t size;            /* the most vbytes of a cluster, 1 to YAGHRUDIL_SIZE_LIMIT_MAX */
    uint64_t bytes_per_sigop; /* an entry's adjusted weight is at least its sigop cost times this; any number, usually 20 */
} yaghrudil_limits;

/* What is answered about one entry. */
typedef struct yaghrudil_placed {
    uint64_t answer; /* one of the numbers above */
    size_t slot;     /* the entry's slot; 0 on a refusal, and slot 0 on success: the answer alone tells them apart */
} yaghrudil_placed;

typedef struct yaghrudil_totals {
    uint64_t answer; /* one of the numbers above */
    size_t entries;  /* how many entries the pool has */
    uint64_t weight; /* their raw weight together */
} yaghrudil_totals;

/* What a block has left for a template. */
typedef struct yaghrudil_terms {
    uint64_t budget;  /* the raw weight that the template may have: 4,000,000 less what header and coinbase take, usually 8,000 */
    uint64_t reserve; /* the sigop cost that is kept for the coinbase, usually 400 */
    uint64_t minimum; /* the least feerate of a chunk, in satoshi per 1,000 vbytes; with 0 only what pays less than nothing is below it */
} yaghrudil_terms;

/*
 * Makes an empty pool with these limits, whatever the table held.
 *
 * Answers 0, or YAGHRUDIL_OUT_OF_RANGE where the table is not YAGHRUDIL_TABLE_WORDS(n) words for an n of 1 to YAGHRUDIL_SLOTS_MAX, or the
 * count limit or the size limit is out of its range.
 */
uint64_t yaghrudil_pool_make(uint64_t *table, size_t table_count, yaghrudil_limits limits);

/*
 * Adds an entry and answers its slot, the lowest free one. It is linked with each of the parents that is in the pool; others, its own txid
 * and repeats are ignored. So a parent has to be added before its children: one that comes later is not linked with them. Of a parent
 * that is neither confirmed nor in the pool, as one that was refused, no children should be added: they would go into a block without it.
 *
 * fee: 0 to YAGHRUDIL_POOL_FEE_MAX. weight: the raw weight, YAGHRUDIL_WEIGHT_MIN to YAGHRUDIL_WEIGHT_MAX. cost: the sigop cost, any number.
 *
 * Refuses with the first that holds of: YAGHRUDIL_TABLE_ILL_FORMED, YAGHRUDIL_LENGTHS_DIFFER (parents_count is not a multiple of 32),
 * YAGHRUDIL_OUT_OF_RANGE (fee, weight), YAGHRUDIL_TXID_PRESENT, YAGHRUDIL_NO_SLOT_FREE, YAGHRUDIL_CLUSTER_TOO_MANY,
 * YAGHRUDIL_CLUSTER_TOO_LARGE.
 */
yaghrudil_placed yaghrudil_pool_add(
    uint64_t *table, size_t table_count,
    const uint8_t txid[YAGHRUDIL_TXID_BYTES],
    uint64_t fee, uint64_t weight, uint64_t cost,
    const uint8_t *parents, size_t parents_count);

/*
 * Removes an entry with its links and answers the slot, which is free now. Its children and parents stay.
 *
 * Refuses with the first that holds of: YAGHRUDIL_TABLE_ILL_FORMED, YAGHRUDIL_TXID_ABSENT.
 */
yaghrudil_placed yaghrudil_pool_remove(
    uint64_t *table, size_t table_count,
    const uint8_t txid[YAGHRUDIL_TXID_BYTES]);

/*
 * Sets an entry's sigop cost and answers its slot.
 *
 * Refuses with the first that holds of: YAGHRUDIL_TABLE_ILL_FORMED, YAGHRUDIL_TXID_ABSENT.
 */
yaghrudil_placed yaghrudil_pool_set_cost(
    uint64_t *table, size_t table_count,
    const uint8_t txid[YAGHRUDIL_TXID_BYTES], uint64_t cost);

/* Removes every entry and keeps the limits. Answers 0, or YAGHRUDIL_TABLE_ILL_FORMED. */
uint64_t yaghrudil_pool_clear(uint64_t *table, size_t table_count);

/* How many entries there are, and their raw weight. Refuses with YAGHRUDIL_TABLE_ILL_FORMED. */
yaghrudil_totals yaghrudil_pool_totals(const uint64_t *table, size_t table_count);

/*
 * Selects transactions for a block: writes their slots to the start of the room, in the order in which they go into the block, each once
 * and behind its ancestors in the pool. Their raw weights together are at most the budget, and their sigop costs with the reserve at most
 * YAGHRUDIL_BLOCK_SIGOPS_MAX; where the reserve alone is more, none is selected.
 *
 * deltas and withheld stand by slot, and have as many elements as the pool has slots; those of free slots are not looked at. A delta, from
 * YAGHRUDIL_DELTA_MIN to YAGHRUDIL_DELTA_MAX, is added to its entry's fee. A mark other than 0 keeps its entry out, and with it all that
 * need it.
 *
 * The chunks of all clusters are tried by exact feerate, the highest first: fees with deltas over adjusted weights, the larger of raw
 * weight and sigop cost times bytes_per_sigop. A chunk goes out with the ancestors that it needs, or is passed over where it pays less than
 * nothing or than the minimum, needs what is withheld, or does not fit what is left. Smaller chunks behind it are still tried.
 *
 * Answers 0 with `written` the number of slots, or else refuses with the first that holds of: YAGHRUDIL_TABLE_ILL_FORMED,
 * YAGHRUDIL_LENGTHS_DIFFER (deltas, withheld), YAGHRUDIL_ROOM_TOO_SHORT (there must be room for every entry of the pool),
 * YAGHRUDIL_OUT_OF_RANGE (a delta).
 */
yaghrudil_reply yaghrudil_pool_template(
    const uint64_t *table, size_t table_count,
    const int64_t *deltas, size_t deltas_count,
    const uint8_t *withheld, size_t withheld_count,
    yaghrudil_terms terms,
    size_t *room, size_t room_count);

#ifdef __cplusplus
}
#endif

#endif
