/*
A right memory of one lock on the bench, which a thread holds from a transaction's beginning to its end: the one-bit lock of Burns and Lamport
(JACM 1986), as Dekker's for any number of threads. A thread raises its flag and looks at the others'. It waits for a later thread's flag; but
if an earlier one's is raised, it lowers its own, backs off, and raises it again. So an earlier thread goes on only if it runs while that is
lowered.

-DBACKOFF= says how it backs off: YIELD, by sched_yield; PAUSE, by TMWATCH_PAUSE; CPU, by the processor's instruction, which is no step, after
a second look; NONE, not at all, so that the loop of thread 1 has three steps.
*/
#include "tmwatch_bench.h"
#include <sched.h>
#include <stdatomic.h>

enum { REGISTERS = 8, THREADS = 8 };
enum backoff { YIELD, PAUSE, CPU, NONE };

struct tx {
    uint64_t before[REGISTERS];
};

static const enum backoff backoff = BACKOFF;
static atomic_bool flags[THREADS];
static _Atomic uint64_t words[REGISTERS];

static void back_off(void)
{
    if (backoff == YIELD)
        sched_yield();
    else if (backoff == PAUSE)
        TMWATCH_PAUSE();
    else if (backoff == CPU)
#ifdef __x86_64__
        __builtin_ia32_pause();
#else
        __asm__ volatile("" ::: "memory");
#endif
}

/* Whether an earlier thread's flag is raised. */
static bool has_earlier(unsigned own)
{
    bool is_raised = false;
    for (unsigned i = 0; i < own && !is_raised; i++)
        is_raised = atomic_load(&flags[i]);
    return is_raised;
}

static bool begin(void *memory, void *tx)
{
    unsigned own = tmwatch_thread();
    (void)memory;
    atomic_store(&flags[own], true);
    while (has_earlier(own) && (backoff != CPU || has_earlier(own))) {
        atomic_store_explicit(&flags[own], false, memory_order_release);
        back_off();
        atomic_store(&flags[own], true);
    }
    for (unsigned i = own + 1; i < THREADS; i++)
        while (atomic_load(&flags[i]))
            back_off();
    for (unsigned reg = 0; reg < REGISTERS; reg++)
        ((struct tx *)tx)->before[reg] = atomic_load_explicit(&words[reg], memory_order_relaxed);
    return true;
}

static bool read(void *memory, void *tx, unsigned reg, uint64_t *value)
{
    (void)memory, (void)tx;
    *value = atomic_load_explicit(&words[reg], memory_order_relaxed);
    return true;
}

static bool write(void *memory, void *tx, unsigned reg, uint64_t value)
{
    (void)memory, (void)tx;
    atomic_store_explicit(&words[reg], value, memory_order_relaxed);
    return true;
}

static bool commit(void *memory, void *tx)
{
    (void)memory, (void)tx;
    atomic_store_explicit(&flags[tmwatch_thread()], false, memory_order_release);
    return true;
}

static void cancel(void *memory, void *tx)
{
    for (unsigned reg = 0; reg < REGISTERS; reg++)
        write(memory, tx, reg, ((struct tx *)tx)->before[reg]);
    commit(memory, tx);
}

static const tmwatch_memory memory = {NULL, sizeof(struct tx), begin, read, write, NULL, commit, cancel, NULL};

TMWATCH_BENCH_MAIN(memory)
