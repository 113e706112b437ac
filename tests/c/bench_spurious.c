/*
A right memory of one lock on the bench, whose transactions are rolled back by chance, as those of processors are: of 100 commits so many as
-DPERCENT= says (50). By -DEACH= of 100 reads and writes too. It writes in place. By -DLEASE= no transaction commits for so many seconds
after the hundredth that asks to.
*/
#include "tmwatch_bench.h"
#include <stdatomic.h>
#include <string.h>
#include <time.h>

#ifndef PERCENT
#define PERCENT 50
#endif
#ifndef EACH
#define EACH 0
#endif
#ifndef LEASE
#define LEASE 0
#endif

enum { REGISTERS = 8, LEASED = 100 };

struct tx {
    uint64_t before[REGISTERS], draws;
};

static uint64_t words[REGISTERS];
static atomic_bool is_locked;

static bool is_drawn(struct tx *tx, unsigned percent)
{
    tx->draws = tx->draws * UINT64_C(6364136223846793005) + 2 * tmwatch_thread() + 1;
    return (tx->draws >> 33) % 100 < percent;
}

static void cancel(void *memory, void *tx)
{
    (void)memory;
    memcpy(words, ((struct tx *)tx)->before, sizeof words);
    is_locked = false;
}

/* A call that answers false leaves nothing of the transaction. */
static bool undo_if(bool is_refused, void *tx)
{
    if (is_refused)
        cancel(NULL, tx);
    return !is_refused;
}

static bool begin(void *memory, void *tx)
{
    (void)memory;
    while (atomic_exchange(&is_locked, true))
        TMWATCH_PAUSE();
    memcpy(((struct tx *)tx)->before, words, sizeof words);
    return true;
}

static bool read(void *memory, void *tx, unsigned reg, uint64_t *value)
{
    (void)memory;
    TMWATCH_PAUSE();
    *value = words[reg];
    return undo_if(is_drawn(tx, EACH), tx);
}

static bool write(void *memory, void *tx, unsigned reg, uint64_t value)
{
    (void)memory;
    words[reg] = value;
    return undo_if(is_drawn(tx, EACH), tx);
}

/* Whether the lease lasts. The lock is held. */
static bool is_leased(void)
{
    static unsigned asked;
    static struct timespec end;
    struct timespec now;
    clock_gettime(CLOCK_MONOTONIC, &now);
    if (++asked == LEASED)
        end = (struct timespec){now.tv_sec + LEASE, now.tv_nsec};
    return now.tv_sec < end.tv_sec || (now.tv_sec == end.tv_sec && now.tv_nsec < end.tv_nsec);
}

static bool commit(void *memory, void *tx)
{
    (void)memory;
    if (!undo_if(is_drawn(tx, PERCENT) || (LEASE > 0 && is_leased()), tx))
        return false;
    is_locked = false;
    return true;
}

static const tmwatch_memory memory = {NULL, sizeof(struct tx), begin, read, write, NULL, commit, cancel, NULL};

TMWATCH_BENCH_MAIN(memory)
