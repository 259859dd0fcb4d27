// The header in C++: every macro and every call, with the warnings that tests/c-example asks for, and what to lend where there is nothing to
// lend. It prints nothing; its status is 0 if all is as it should be, else the line of the first test that is not.
#include <cstring>
#include <vector>

#include "bench.h"

#define HOLDS(fact)          \
    do {                     \
        if (!(fact))         \
            return __LINE__; \
    } while (0)

// The macros are constants where the sizes are.
static_assert(BENCH_WORDS(4, 3, 1, 2, 1, 1) == 897, "R281");
static_assert(BENCH_WORDS(16, 16, 16, 8, 8, 8) == 1855497, "R377");
static_assert(BENCH_FILLS(16, 16, 16) == 53248, "R403");
static_assert(BENCH_PAGE(1, 1, 1) == 744, "R413");
static_assert(BENCH_TAG(33286453360u) == 7 && BENCH_CHUNKS(33286453360u) == 5 && BENCH_DESTINATION(33286453360u) == 6, "R378");
static_assert(BENCH_DX(33286453360u) == -2 && BENCH_DY(33286453360u) == 3 && BENCH_DZ(33286453360u) == -16, "R378");
static_assert(BENCH_CHUNKS(753632u) == 1 && BENCH_CHUNKS(31944214560u) == 8 && BENCH_DESTINATION(31944214560u) == 6, "R26");

int main()
{
    std::vector<uint64_t> words(BENCH_WORDS(4, 1, 1, 2, 1, 1)), ledger;
    std::vector<uint8_t> fills(BENCH_FILLS(4, 1, 1)), told(fills.size()), page(BENCH_PAGE(4, 1, 1));
    uint64_t moved[BENCH_MOVE_OUT] = {}, credit[BENCH_CREDIT_OUT] = {}, look[BENCH_LOOK_OUT] = {}, first[BENCH_FIRST_OUT] = {};
    uint64_t drained[BENCH_DRAIN_OUT] = {}, written[BENCH_WRITE_OUT] = {}, step[BENCH_READ_OUT] = {};
    uint64_t none = 0;

    HOLDS(bench_make(words.data(), words.size(), 4, 1, 1, 2, 1, 1) == 0);
    HOLDS(bench_write_header(words.data(), words.size(), fills.data(), fills.size(), page.data(), page.size(), written) == 0);
    HOLDS(bench_read_step(page.data(), written[0], told.data(), told.size(), step) == 0 && step[0] == 1 && step[2] == 52);
    HOLDS(bench_offer(words.data(), words.size(), 0, 2, 7, 0) == BENCH_WRONG_SIZE);
    HOLDS(bench_offer(words.data(), words.size(), 0, 2, 7, uint64_t{1} << 32) == BENCH_WRONG_SIZE);
    HOLDS(bench_offer(words.data(), words.size(), 0, 2, 7, 5) == 0);
    HOLDS(bench_offer(words.data(), words.size(), 0, 0, 7, 5) == BENCH_TO_ONESELF);
    HOLDS(bench_check(words.data(), words.size()) == 0);
    HOLDS(bench_credit(words.data(), words.size(), 0, 7, credit) == 0 && credit[0] == 2);
    HOLDS(bench_credit(words.data(), words.size(), 0, 1, credit) == 0 && credit[0] == 8);
    HOLDS(bench_first(words.data(), words.size(), first) == 0 && first[0] == 1 && first[3] == 1);
    HOLDS(bench_look(words.data(), words.size(), 0, 0, look) == 0 && look[1] == 1);
    HOLDS(BENCH_TAG(words[look[0]]) == 7 && BENCH_CHUNKS(words[look[0]]) == 5 && BENCH_DESTINATION(words[look[0]]) == 2);
    HOLDS(BENCH_DX(words[look[0]]) == 2 && BENCH_DY(words[look[0]]) == 0 && BENCH_DZ(words[look[0]]) == 0);
    HOLDS(bench_move(words.data(), words.size(), 0, 0, 7, moved) == 0 && moved[0] == 0);
    HOLDS(bench_write_changes(words.data(), words.size(), fills.data(), fills.size(), page.data(), page.size(), written) == 0);
    HOLDS(written[0] == 9 && std::memcmp(page.data(), "#1\nb1 20\n", 9) == 0);
    // A ledger that is empty: an object of its type with length 0, since data() may be NULL. The drain stops before it would deliver.
    HOLDS(bench_drain(words.data(), words.size(), 10, ledger.empty() ? &none : ledger.data(), ledger.size(), drained) == 0);
    HOLDS(drained[0] == 1 && drained[1] == 0 && drained[2] == BENCH_FULL && none == 0);
    // The same with one word for the packet.
    ledger.resize(1);
    HOLDS(bench_drain(words.data(), words.size(), 10, ledger.data(), ledger.size(), drained) == 0);
    HOLDS(drained[0] == 1 && drained[2] == BENCH_EMPTIED && BENCH_TAG(ledger[0]) == 7 && BENCH_CHUNKS(ledger[0]) == 5);
    return 0;
}
