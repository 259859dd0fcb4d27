/*
 * A dump from a file, read step by step: `read-dump run.vcd` prints, for each step,
 * its time stamp and the queues that hold packets, with how many. tests/c-example
 * builds it and runs it on examples/bubble.vcd, the dump of examples/bubble.sheet.
 */
#include <inttypes.h>
#include <stdio.h>
#include <stdlib.h>

#include "bench.h"

/* As many fills as the largest network has: the header tells how many there are. */
static uint8_t fills[BENCH_FILLS(16, 16, 16)];

/* All bytes of the file; their number goes to *len. NULL if it cannot be read. */
static uint8_t *read_file(const char *name, size_t *len)
{
    FILE *file = fopen(name, "rb");
    uint8_t *bytes = NULL;
    size_t room = 0, got;

    *len = 0;
    if (file == NULL)
        return NULL;
    do {
        uint8_t *more;

        room = 2 * room + 4096;
        more = realloc(bytes, room);
        if (more == NULL)
            break;
        bytes = more;
        got = fread(bytes + *len, 1, room - *len, file);
        *len += got;
    } while (got != 0);
    if (!feof(file) || ferror(file)) {
        free(bytes);
        bytes = NULL;
    }
    fclose(file);
    return bytes;
}

/* Where the step that begins at `from` ends. A step has one line that begins with
 * '#', its time stamp, so it ends before the second: the file is cut before each such
 * line but the first, which is the header's own. */
static size_t step_end(const uint8_t *bytes, size_t len, size_t from)
{
    size_t at, stamps = 0;

    for (at = from; at < len; at++)
        if (bytes[at] == '#' && (at == from || bytes[at - 1] == '\n')) {
            stamps++;
            if (stamps == 2)
                return at;
        }
    return len;
}

/* Prints the queues that hold packets, of the first `count` of the list. */
static void print_fills(uint64_t time, size_t count)
{
    size_t i;

    printf("%" PRIu64 ":", time);
    for (i = 0; i < count; i++)
        if (fills[i] != 0)
            printf(" n%zuq%zu=%d", i / 13, i % 13, fills[i]);
    printf("\n");
}

int main(int argc, char **argv)
{
    uint64_t told[BENCH_READ_OUT] = {0};
    uint8_t *bytes;
    size_t len, from, end, count = 0;

    if (argc != 2) {
        fprintf(stderr, "usage: read-dump FILE\n");
        return 2;
    }
    bytes = read_file(argv[1], &len);
    if (bytes == NULL) {
        fprintf(stderr, "%s: cannot be read\n", argv[1]);
        return 2;
    }
    from = 0;
    do {
        uint64_t refusal;

        end = step_end(bytes, len, from);
        refusal = bench_read_step(bytes + from, end - from, fills, sizeof fills, told);
        /* A step is judged by itself. That the header comes first, and once, only the caller sees. */
        if (refusal != 0 || (told[0] == 1) != (from == 0)) {
            fprintf(stderr, "%s: no step of a dump at byte %zu (%" PRIu64 ")\n", argv[1], from, refusal);
            free(bytes);
            return 1;
        }
        if (told[0] == 1) {
            count = (size_t)told[2];
            printf("%zu queues\n", count);
        }
        print_fills(told[1], count);
        from = end;
    } while (from < len);
    free(bytes);
    return 0;
}
