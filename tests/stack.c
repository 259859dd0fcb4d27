/*
 * What the calls of the archive use of the stack, on the largest network: they
 * are made on a stack that was painted before, and what is no longer paint was
 * used. Prints how much, and fails if that is more than the header says.
 */
#include <bench.h>
#include <pthread.h>
#include <stdio.h>
#include <stdlib.h>
#include <string.h>

enum { STACK = 1024 * 1024, PAINT = 0x5a };

static void wanted(const char *call, uint64_t refusal)
{
    if (refusal == 0)
        return;
    printf("stack: %s was refused as %u\n", call, (unsigned)refusal);
    exit(1);
}

#define CALL(name, ...) wanted(#name, name(__VA_ARGS__))

/* Every call once, and an offer at some of the nodes, so that the drain has work: each of them checks all of the words. */
static void *calls(void *nothing)
{
    size_t len = BENCH_WORDS(16, 16, 16, 8, 8, 8);
    size_t fills_len = BENCH_FILLS(16, 16, 16), page_len = BENCH_PAGE(16, 16, 16);
    uint64_t *words = calloc(len, sizeof *words), *ledger = calloc(len, sizeof *ledger);
    uint8_t *fills = calloc(fills_len, 1), *page = calloc(page_len, 1);
    uint64_t out[BENCH_FIRST_OUT] = {0};
    if (!words || !ledger || !fills || !page)
        exit(1);
    CALL(bench_make, words, len, 16, 16, 16, 8, 8, 8);
    for (uint64_t node = 0; node < 4096; node += 9)
        CALL(bench_offer, words, len, node, (node + 1911) % 4096, 7, 1 + node % 8);
    CALL(bench_check, words, len);
    CALL(bench_credit, words, len, 1, 2, out);
    CALL(bench_look, words, len, 1, 0, out);
    CALL(bench_first, words, len, out);
    CALL(bench_move, words, len, out[1], out[2], out[3], out);
    CALL(bench_write_header, words, len, fills, fills_len, page, page_len, out);
    CALL(bench_read_step, page, out[0], fills, fills_len, out);
    CALL(bench_write_changes, words, len, fills, fills_len, page, page_len, out);
    CALL(bench_drain, words, len, 100000, ledger, len, out);
    free(words);
    free(ledger);
    free(fills);
    free(page);
    return nothing;
}

int main(void)
{
    unsigned char *stack;
    pthread_attr_t attributes;
    pthread_t thread;
    size_t free_bytes = 0;
    if (posix_memalign((void **)&stack, 4096, STACK) != 0)
        return 1;
    memset(stack, PAINT, STACK);
    if (pthread_attr_init(&attributes) != 0 || pthread_attr_setstack(&attributes, stack, STACK) != 0
        || pthread_create(&thread, &attributes, calls, NULL) != 0 || pthread_join(thread, NULL) != 0)
        return 1;
    while (free_bytes < STACK && stack[free_bytes] == PAINT)
        free_bytes++;
    printf("stack: %u bytes used, %u stated\n", (unsigned)(STACK - free_bytes), (unsigned)BENCH_STACK);
    return STACK - free_bytes > BENCH_STACK;
}
