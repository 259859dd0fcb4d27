/*
 * The library from C: a ring of four nodes and three packets. Two offers and a
 * move are refused, and the program goes on by what the refusal says. R152 is a
 * clause of docs/RULES.md.
 */
#include <inttypes.h>
#include <stdio.h>

#include "bench.h"

/* Prints what a call answered, and hands the number on. */
static uint64_t told(const char *call, uint64_t refusal)
{
    if (refusal == 0)
        printf("%s: done\n", call);
    else
        printf("%s: refused by %" PRIu64 "\n", call, refusal);
    return refusal;
}

int main(void)
{
    /* All that is lent is initialised. */
    uint64_t words[BENCH_WORDS(4, 1, 1, 2, 1, 1)] = {0}, ledger[8] = {0};
    size_t len = sizeof words / sizeof words[0];
    uint64_t moved[BENCH_MOVE_OUT] = {0}, credit[BENCH_CREDIT_OUT] = {0};
    uint64_t look[BENCH_LOOK_OUT] = {0}, drain[BENCH_DRAIN_OUT] = {0};

    if (told("make", bench_make(words, len, 4, 1, 1, 2, 1, 1)) != 0)
        return 1;
    if (told("offer 7 at node 0 for node 2", bench_offer(words, len, 0, 2, 7, 8)) != 0)
        return 1;

    /* Node 0 has one slot for new packets. When it is full, move the head on and offer again. */
    if (told("offer 8 at node 0 for node 1", bench_offer(words, len, 0, 1, 8, 3)) == BENCH_GATE_FULL) {
        told("move from queue 0 of node 0 to output 7", bench_move(words, len, 0, 0, 7, moved));
        told("offer 8 again", bench_offer(words, len, 0, 1, 8, 3));
    }

    /* Where the first packet stands now: in the escape queue x+ of node 1. */
    if (bench_look(words, len, 1, 7, look) == 0)
        for (uint64_t i = 0; i < look[1]; i++) {
            uint64_t packet = words[look[0] + i];
            printf("queue 7 of node 1 holds tag %" PRIu32 " of %" PRIu32 " chunks, destination %" PRIu32 ", hops left %d, %d and %d\n",
                   BENCH_TAG(packet), BENCH_CHUNKS(packet), BENCH_DESTINATION(packet), BENCH_DX(packet), BENCH_DY(packet), BENCH_DZ(packet));
        }

    /* One slot is free there. Who enters the ring needs two (R152): refused by 12, no fault. The adaptive queue is free. */
    if (bench_credit(words, len, 0, 7, credit) == 0)
        printf("output 7 of node 0: %" PRIu64 " slot free\n", credit[0]);
    if (told("move from queue 0 of node 0 to output 7", bench_move(words, len, 0, 0, 7, moved)) == BENCH_NO_BUBBLE)
        told("move from queue 0 of node 0 to output 1", bench_move(words, len, 0, 0, 1, moved));

    /* An adaptive queue counts chunks: eight of them with A = 1, and packet 8 has taken three. */
    if (bench_credit(words, len, 0, 1, credit) == 0)
        printf("output 1 of node 0: %" PRIu64 " chunks free\n", credit[0]);

    /* At its destination a packet is delivered by output 0, and its word handed out. */
    if (told("move from queue 1 of node 1 to output 0", bench_move(words, len, 1, 1, 0, moved)) == 0 && moved[0] == 1)
        printf("handed out: tag %" PRIu32 " at node %" PRIu32 "\n", BENCH_TAG(moved[1]), BENCH_DESTINATION(moved[1]));

    /* A node offers to the others and not to itself (R174). */
    if (told("offer 9 at node 3 for node 3", bench_offer(words, len, 3, 3, 9, 8)) == BENCH_TO_ONESELF)
        told("offer 9 at node 3 for node 0", bench_offer(words, len, 3, 0, 9, 8));

    if (told("drain", bench_drain(words, len, 10, ledger, 8, drain)) != 0)
        return 1;
    printf("%" PRIu64 " moves, %" PRIu64 " delivered, %s\n", drain[0], drain[1],
           drain[2] == BENCH_EMPTIED ? "emptied" : drain[2] == BENCH_SPENT ? "spent" : "full");
    for (uint64_t i = 0; i < drain[1]; i++)
        printf("handed out: tag %" PRIu32 " at node %" PRIu32 "\n", BENCH_TAG(ledger[i]), BENCH_DESTINATION(ledger[i]));
    return 0;
}
