/*
 * bench.h - the adaptive bubble router bench, for C and C++
 *
 * The rules are in docs/RULES.md; R30 below is a clause there.
 *
 * A network is a torus with X columns, Y rows and Z planes that moves whole
 * packets. It lives in an array of 64-bit words that you lend to each call; the
 * library keeps nothing between calls, allocates nothing, and touches no memory
 * but what the call lends and up to BENCH_STACK bytes of stack. Use the words as
 * memory to work in, not as a format to store or send (R40 to R49).
 *
 * Sizes: X, Y and Z 1 to 16; E 2 to 8, A and J 1 to 8 (R21 to R24). A network of
 * two dimensions has Z = 1.
 *
 * A packet has 1 to 8 chunks (R26). An escape queue has E slots and an injection
 * queue J: there a packet takes one, whatever its chunks are. An adaptive queue
 * has 8 * A chunks, of which a packet takes its own (R27, R28): it holds A packets
 * of eight chunks, or up to 8 * A of fewer.
 *
 * Nodes are (z * Y + y) * X + x. The queues of a node are numbered: 0 takes new
 * packets in, 1 to 6 are the adaptive queues of the directions x+, x-, y+, y-,
 * z+, z-, and 7 to 12 the escape queues of the same (R30 to R34). An output is
 * 0, delivery, or the number of the queue that the packet joins, 1 to 12, one
 * node on in that queue's direction (R106, R107).
 *
 * Memory, for every call:
 *   - a pointer with a length is valid for that many elements: 64-bit words for
 *     `words` and `ledger`, bytes for `fills`, `page` and `bytes`. Lengths count
 *     elements;
 *   - words and bytes that are lent are initialised, all of them, those of `out`
 *     too: a local array without an initialiser or memory fresh from malloc is
 *     not. What they contain does not matter, any may be lent;
 *   - a pointer must not be NULL and must be aligned for its type, even if the
 *     length behind it is 0. If you have nothing to lend, as for a drain without
 *     a ledger, lend any object of that type with length 0: `uint64_t none = 0;`
 *     and `&none, 0`. So also for a std::vector of C++ that is empty: its data()
 *     may be NULL;
 *   - the arrays of one call (words, ledger, fills, page, bytes, out) must not
 *     overlap;
 *   - `out` must have the number of words given for the call (BENCH_MOVE_OUT
 *     and so on). Those words are written on every call, refused or not, and
 *     no later ones.
 *
 * Every call returns 0, or the number of a refusal. A refused call changes
 * nothing that is lent but `out`, all words of which it sets to 0 (R190 to R194,
 * R414, R420). Words behind the last node stay as they are (R48).
 *
 * Two threads may use the library at once if they lend different memory.
 *
 * The archive, libbench_c.a, is for x86-64 Linux (ELF, the System V calling
 * convention). `scripts/library` builds it in target/staticlib; link it
 * behind your own objects, as tests/c-example does. It calls nothing but memcpy,
 * memmove and memset of the C library.
 *
 *     uint64_t words[BENCH_WORDS(4, 1, 1, 2, 1, 1)] = {0}, ledger[8] = {0};
 *     uint64_t out[BENCH_DRAIN_OUT] = {0};
 *     size_t len = sizeof words / sizeof words[0];
 *     bench_make(words, len, 4, 1, 1, 2, 1, 1);
 *     bench_offer(words, len, 0, 2, 7, 8);
 *     bench_drain(words, len, 10, ledger, 8, out);
 *     // out: 3 moves, 1 delivered, BENCH_EMPTIED
 *     // BENCH_TAG(ledger[0]) is 7, BENCH_CHUNKS(ledger[0]) is 8
 */
#ifndef BENCH_H
#define BENCH_H

#include <stddef.h>
#include <stdint.h>

#ifdef __cplusplus
extern "C" {
#endif

/*
 * The version of this interface: of the calls' parameters and answers, the
 * numbers of the refusals and the meaning of the words. It is raised by one with
 * each change after which a program written for the older one could be wrong.
 * Header and archive must be of one commit: the archive does not carry it.
 */
#define BENCH_VERSION 5

/* The bytes of stack that a call uses at most, on the largest network too. It is
 * measured and not proved: tests/c-example holds the archive to it. */
#define BENCH_STACK (96 * 1024)

/* A cast, in the form of either language: for the macros below. */
#ifdef __cplusplus
#define BENCH_CAST(type, value) (static_cast<type>(value))
#else
#define BENCH_CAST(type, value) ((type)(value))
#endif

/* The words that a network of these sizes needs. */
#define BENCH_WORDS(x, y, z, e, a, j) \
    (9 + BENCH_CAST(size_t, x) * BENCH_CAST(size_t, y) * BENCH_CAST(size_t, z) * \
             (13 + BENCH_CAST(size_t, j) + 48 * BENCH_CAST(size_t, a) + \
              6 * BENCH_CAST(size_t, e)))

/* The bytes of a list of fills of such a network, one for each queue, and of a
 * page on which any step of its dump has room (R406, R413). */
#define BENCH_FILLS(x, y, z) \
    (13 * BENCH_CAST(size_t, x) * BENCH_CAST(size_t, y) * BENCH_CAST(size_t, z))
#define BENCH_PAGE(x, y, z) (120 + 48 * BENCH_FILLS(x, y, z))

/* The number of words of `out`, call by call. */
#define BENCH_MOVE_OUT 2
#define BENCH_CREDIT_OUT 1
#define BENCH_LOOK_OUT 2
#define BENCH_FIRST_OUT 4
#define BENCH_DRAIN_OUT 3
#define BENCH_WRITE_OUT 1
#define BENCH_READ_OUT 3

/* The parts of a packet word (R60 to R63): the caller's tag, the chunks, 1 to 8,
 * the destination, and the hops left in x, y and z, below 0 where they go to x-,
 * y- or z-. Bits 15 and 31 of the word are 0 in a network (R69, R87, R88). */
#define BENCH_TAG(word) BENCH_CAST(uint32_t, BENCH_CAST(uint64_t, word) >> 32)
#define BENCH_CHUNKS(word) \
    (BENCH_CAST(uint32_t, BENCH_CAST(uint64_t, word) >> 28 & 7) + 1)
#define BENCH_DESTINATION(word) \
    BENCH_CAST(uint32_t, BENCH_CAST(uint64_t, word) >> 16 & 0xfff)
#define BENCH_DX(word) \
    (BENCH_CAST(int, (BENCH_CAST(uint64_t, word) >> 10 & 0x1f) ^ 0x10) - 0x10)
#define BENCH_DY(word) \
    (BENCH_CAST(int, (BENCH_CAST(uint64_t, word) >> 5 & 0x1f) ^ 0x10) - 0x10)
#define BENCH_DZ(word) \
    (BENCH_CAST(int, (BENCH_CAST(uint64_t, word) & 0x1f) ^ 0x10) - 0x10)

/* The refusals (R161 to R175). */
enum {
    BENCH_SHORT_STORE = 1,    /* less than 9 words, or less than the sizes ask for */
    BENCH_WRONG_SIZE = 2,     /* X, Y, Z, E, A or J out of range; in bench_offer,
                                 after 4, also chunks that are not 1 to 8 */
    BENCH_NO_NETWORK = 3,     /* the check of the words fails otherwise */
    BENCH_NO_SUCH_NODE = 4,   /* node or destination not below X * Y * Z */
    BENCH_NO_SUCH_QUEUE = 5,  /* above 12 */
    BENCH_NO_SUCH_OUTPUT = 6, /* above 12; for bench_credit also 0 */
    BENCH_GATE_FULL = 7,      /* the injection queue holds J */
    BENCH_COUNT_SPENT = 8,    /* 2^32 - 1 packets were accepted */
    BENCH_NOBODY_THERE = 9,   /* the queue is empty */
    BENCH_NOT_ITS_WAY = 10,   /* the head has no route by that output */
    BENCH_NO_SLOT = 11,       /* the target has no free slot; an adaptive one, fewer
                                 free chunks than the packet has */
    BENCH_NO_BUBBLE = 12,     /* two free slots are needed, one is there */
    BENCH_BAD_TEXT = 13,      /* bench_read_step: the bytes are no step */
    BENCH_TO_ONESELF = 14,    /* the destination is the node that offers */
    BENCH_SHORT_PAGE = 15     /* page or fills have no room for the step */
};

/* Why a drain stopped (R130 to R132). */
enum {
    BENCH_EMPTIED = 0, /* nothing is held */
    BENCH_SPENT = 1,   /* something is held, and the budget is used up */
    BENCH_FULL = 2     /* the next move delivers, and the ledger is full */
};

/*
 * Writes an empty network with all counts 0 into the first BENCH_WORDS words
 * (R91, R92). Refused, tested in this order (R180): a size out of range (2); a
 * store shorter than the sizes ask for (1).
 */
uint64_t bench_make(uint64_t *words, size_t len, uint64_t x, uint64_t y, uint64_t z,
                    uint64_t e, uint64_t a, uint64_t j);

/*
 * Whether the words are a network (R70 to R89). Refused, tested in this order
 * (R181): less than 9 words (1); a size out of range (2); a store shorter than
 * the sizes ask for (1); anything else that is not as in a network (3). Every
 * call below that is lent words begins with these four tests, so it is safe to
 * lend any words to any of them; "further" tests below are those that follow.
 */
uint64_t bench_check(const uint64_t *words, size_t len);

/*
 * Puts a packet of so many chunks behind the others in queue 0 of the node (R100
 * to R102). It will take the shorter way in each dimension (R67). Where both ways
 * are as long as each other, this node's coordinate in that dimension decides:
 * plus if it is even, minus if it is odd (R68). A packet that is held already
 * keeps its way. `chunks` may be any number. Refused further, tested in this order
 * (R189): node or destination is no node (4); the chunks are not 1 to 8 (2); node
 * and destination are the same node (14); 2^32 - 1 packets were accepted (8);
 * queue 0 is full (7). Words that already hold a packet for the very node where it
 * stands are a network as before, and it is delivered (R86).
 */
uint64_t bench_offer(uint64_t *words, size_t len, uint64_t node, uint64_t destination,
                     uint32_t tag, uint64_t chunks);

/*
 * Moves the head of a queue to an output (R105 to R112). Refused further, tested
 * in this order (R184): no such node (4); no such queue (5); no such output (6);
 * the queue is empty (9); the output is no route of its head (10); the target
 * has no free slot or, for outputs 1 to 6, fewer free chunks than the head has
 * (11); the head would enter an escape ring, which takes two free slots in the
 * target, and one is free (12).
 * out[0]: packets handed out, 1 for a delivery (output 0) and else 0.
 * out[1]: the packet word that was handed out, or 0.
 */
uint64_t bench_move(uint64_t *words, size_t len, uint64_t node, uint64_t queue,
                    uint64_t output, uint64_t out[2]);

/*
 * What is free of the queue that an output from 1 to 12 leads to (R115, R116):
 * chunks for the outputs 1 to 6, which are adaptive queues, and slots for the
 * outputs 7 to 12, which are escape queues. Refused further, tested in this order
 * (R185): no such node (4); output 0 or above 12 (6).
 * out[0]: the number of free chunks, or of free slots.
 */
uint64_t bench_credit(const uint64_t *words, size_t len, uint64_t node, uint64_t output,
                      uint64_t out[1]);

/*
 * The packets held in a queue, oldest first, where they stand in the words you
 * lent (R118 to R121). Refused further, tested in this order (R186): no such
 * node (4); no such queue (5).
 * out[0]: the index in `words` of the first held word; if the queue is empty,
 *         the index where its first packet would stand.
 * out[1]: the number held, so that the packets are words[out[0]] to
 *         words[out[0] + out[1] - 1].
 */
uint64_t bench_look(const uint64_t *words, size_t len, uint64_t node, uint64_t queue,
                    uint64_t out[2]);

/*
 * The first permitted move: by node, then by queue, then by the order of the
 * head's routes (R123). No further test (R182).
 * out[0]: 1 if there is one, which is so whenever a packet is held; else 0.
 * out[1], out[2], out[3]: its node, queue and output; all 0 if there is none.
 */
uint64_t bench_first(const uint64_t *words, size_t len, uint64_t out[4]);

/*
 * Makes the move that bench_first names, again and again, at most `budget`
 * times, and puts the word of each delivered packet into the ledger, from its
 * first word on. Ledger words that are not needed stay as they were (R126 to
 * R134). No further test (R182).
 * out[0]: the number of moves made.
 * out[1]: the number delivered.
 * out[2]: why it stopped, BENCH_EMPTIED, BENCH_SPENT or BENCH_FULL.
 */
uint64_t bench_drain(uint64_t *words, size_t len, uint32_t budget, uint64_t *ledger,
                     size_t ledger_len, uint64_t out[3]);

/*
 * The fills of the queues as a value change dump, the text that waveform viewers
 * read (docs/WAVEFORM.md, R400 to R410). `fills` is a list of your own, a byte for
 * each queue by node and queue, that goes from step to step; what it contains
 * before the first step does not matter.
 *
 * bench_write_header writes the first step of a dump, the header with every fill,
 * onto the page; bench_write_changes a later one, with only those queues whose
 * fill is another than `fills` says. Both make `fills` the fills of the network
 * (R411 to R414). Refused further: `fills` has fewer than BENCH_FILLS bytes or
 * `page` fewer than the step has (15). Page and list behind the step and the
 * fills stay as they were.
 * out[0]: the number of bytes of the step.
 */
uint64_t bench_write_header(const uint64_t *words, size_t len, uint8_t *fills,
                            size_t fills_len, uint8_t *page, size_t page_len,
                            uint64_t out[1]);
uint64_t bench_write_changes(const uint64_t *words, size_t len, uint8_t *fills,
                             size_t fills_len, uint8_t *page, size_t page_len,
                             uint64_t out[1]);

/*
 * Reads one step, all of `bytes`, and puts the fills that it tells into `fills`
 * (R415 to R420). Given the steps of one network in order, from the header on, a
 * list of BENCH_FILLS bytes is that network's fills after each (R421). Refused,
 * tested in this order: the bytes are not one step as docs/WAVEFORM.md fixes it
 * (13); `fills` is too short for it (15): a header needs a byte for each of its
 * variables, a later step as many as its last variable's number and one, or none
 * if it tells no variable.
 * out[0]: 1 for a header, 0 for a later step.
 * out[1]: the time stamp, which is the moves made.
 * out[2]: the number of variables that the step tells.
 */
uint64_t bench_read_step(const uint8_t *bytes, size_t bytes_len, uint8_t *fills,
                         size_t fills_len, uint64_t out[3]);

#ifdef __cplusplus
}
#endif

#endif
