/*
 * The waveform from C: the fills of two nodes written step by step, read back
 * into a list of the reader's own, and two refusals. tests/c-example builds and
 * runs it.
 */
#include <stdio.h>
#include <string.h>

#include "bench.h"

#define FILLS BENCH_FILLS(2, 1, 1)

static uint64_t words[BENCH_WORDS(2, 1, 1, 2, 1, 1)];
static uint8_t written[FILLS], told[FILLS], page[BENCH_PAGE(2, 1, 1)];
static const size_t len = sizeof words / sizeof words[0];

/* Reads the first bytes of the page as a step, and prints what it tells. */
static void read_back(size_t bytes)
{
    uint64_t out[BENCH_READ_OUT] = {0};
    uint64_t refusal = bench_read_step(page, bytes, told, FILLS, out);
    size_t i;

    printf("read: %llu, header %llu, time %llu, variables %llu, fills",
           (unsigned long long)refusal, (unsigned long long)out[0],
           (unsigned long long)out[1], (unsigned long long)out[2]);
    for (i = 0; i < FILLS; i++)
        printf(" %d", told[i]);
    printf("\n");
}

/* Writes what has changed, prints the step, and reads it back. */
static void step(void)
{
    uint64_t out[BENCH_WRITE_OUT] = {0};
    uint64_t refusal = bench_write_changes(words, len, written, FILLS, page, sizeof page, out);

    printf("changes: %llu\n%.*s", (unsigned long long)refusal, (int)out[0], (const char *)page);
    read_back((size_t)out[0]);
}

int main(void)
{
    uint64_t out[BENCH_WRITE_OUT] = {0}, moved[BENCH_MOVE_OUT] = {0};
    uint64_t refusal;

    memset(told, 9, sizeof told); /* what a list has before the header does not matter */
    bench_make(words, len, 2, 1, 1, 2, 1, 1);
    refusal = bench_write_header(words, len, written, FILLS, page, sizeof page, out);
    printf("header: %llu, %llu bytes\n", (unsigned long long)refusal, (unsigned long long)out[0]);
    read_back((size_t)out[0]);

    bench_offer(words, len, 0, 1, 7, 8);
    step();
    bench_move(words, len, 0, 0, 1, moved);
    step();
    step(); /* nothing has changed: the time stamp alone */

    page[0] = 'x'; /* no step begins so */
    read_back(2);
    refusal = bench_write_header(words, len, written, FILLS - 1, page, sizeof page, out);
    printf("a list one byte short: %llu\n", (unsigned long long)refusal);
    return 0;
}
