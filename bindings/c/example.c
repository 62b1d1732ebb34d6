/* Orders a cluster in which a child pays for its cheap parent, cuts the order into chunks, and shows a refusal. */
#include "../yaghrudil.h"

#include <inttypes.h>
#include <stdio.h>

#define COUNT(array) (sizeof(array) / sizeof((array)[0]))

/* Member 0 pays little, its child 1 much, and 2 stands alone: 0 and 1 together pay more for their size than 2. */
static const int64_t fees[] = {100, 5000, 900};
static const uint64_t sizes[] = {400, 200, 300};
static const uint64_t parents[] = {0, UINT64_C(1) << 0, 0};

static int refused(const char *call, yaghrudil_reply reply)
{
    if (reply.answer != YAGHRUDIL_SUCCESS)
        printf("%s refuses with %" PRIu64 "\n", call, reply.answer);
    return reply.answer != YAGHRUDIL_SUCCESS;
}

/* Prints the members of each chunk with the chunk's fee and size. */
static void print_chunks(const size_t *order, const size_t *lengths, size_t chunks)
{
    size_t at = 0;
    for (size_t k = 0; k < chunks; k++) {
        int64_t fee = 0;
        uint64_t size = 0;
        printf("chunk %zu: members", k);
        for (size_t end = at + lengths[k]; at < end; at++) {
            printf(" %zu", order[at]);
            fee += fees[order[at]];
            size += sizes[order[at]];
        }
        printf("; fee %" PRId64 ", size %" PRIu64 "\n", fee, size);
    }
}

static int order_and_chunks(void)
{
    size_t order[COUNT(fees)] = {0};
    yaghrudil_reply reply = yaghrudil_linearize(
        fees, COUNT(fees), sizes, COUNT(sizes), parents, COUNT(parents), order, COUNT(order));
    if (refused("linearize", reply))
        return 1;
    printf("order:");
    for (size_t k = 0; k < reply.written; k++)
        printf(" %zu", order[k]);
    printf("\n");

    int64_t ordered_fees[COUNT(fees)];
    uint64_t ordered_sizes[COUNT(fees)];
    for (size_t k = 0; k < COUNT(fees); k++) {
        ordered_fees[k] = fees[order[k]];
        ordered_sizes[k] = sizes[order[k]];
    }
    size_t lengths[COUNT(fees)] = {0};
    reply = yaghrudil_chunk_lengths(
        ordered_fees, COUNT(ordered_fees), ordered_sizes, COUNT(ordered_sizes), lengths, COUNT(lengths));
    if (refused("chunk_lengths", reply))
        return 1;
    print_chunks(order, lengths, reply.written);
    return 0;
}

/* Two members that are each other's parents: the room must still hold what it held. */
static int show_refusal(void)
{
    static const uint64_t circle[] = {UINT64_C(1) << 1, UINT64_C(1) << 0};
    size_t room[2] = {77, 78};
    yaghrudil_reply reply = yaghrudil_linearize(fees, 2, sizes, 2, circle, COUNT(circle), room, COUNT(room));
    if (!refused("linearize of a circle", reply))
        return 1;
    printf("written %zu, the room still holds %zu %zu\n", reply.written, room[0], room[1]);
    return reply.answer != YAGHRUDIL_CYCLE;
}

int main(void)
{
    return order_and_chunks() || show_refusal();
}
