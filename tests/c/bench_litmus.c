/*
Litmus tests of delayed stores (Sewell, Sarkar, Owens, Zappa Nardelli and Myreen, CACM 2010), each as a memory on the bench: in each round
thread 0 and thread 1 carry out their part, each with variables of this round. What the store buffers of x86 forbid must never come out, and
what they allow must come out some time. The program prints what came out of each, and its exit status is 1 if one is wrong.
*/
#include "tmwatch_bench.h"
#include <stdatomic.h>
#include <string.h>

/* (the schedules of two neighbouring seeds soon are the same here, where all transactions are alike) */
enum { ROUNDS = 60, SEEDS = 40, APART = 10000, VALUES = 3 };

/* The variables of a round, and what the threads have seen. */
struct round {
    _Atomic uint64_t x, y, z;
    uint64_t plain;
    uint64_t seen[2];
};

static struct round rounds[ROUNDS + 2];
static unsigned begun[2];

static uint64_t load(_Atomic uint64_t *at)
{
    return atomic_load_explicit(at, memory_order_relaxed);
}

static void store(_Atomic uint64_t *at, uint64_t value)
{
    atomic_store_explicit(at, value, memory_order_relaxed);
}

/* Each thread stores to its own variable, does this, and loads the other's. */
static void nothing(struct round *it)
{
    (void)it;
}

static void fence(struct round *it)
{
    (void)it;
    atomic_thread_fence(memory_order_seq_cst);
}

static void weak_fence(struct round *it)
{
    (void)it;
    atomic_thread_fence(memory_order_acq_rel);
}

/* (a thread's own store is read where it is still delayed) */
static void load_both(struct round *it)
{
    load(&it->x);
    load(&it->y);
}

#ifdef WIDE
static void change_wide(struct round *it)
{
    (void)it;
    __extension__ static unsigned __int128 at;
    __atomic_fetch_add(&at, 1, __ATOMIC_RELAXED);
}
#endif

static void change(struct round *it)
{
    atomic_fetch_add_explicit(&it->z, 1, memory_order_relaxed);
}

static void store_last(struct round *it)
{
    atomic_store_explicit(&it->z, 1, memory_order_seq_cst);
}

static void buffering(struct round *it, unsigned thread, void (*between)(struct round *))
{
    store(thread == 0 ? &it->x : &it->y, 1);
    between(it);
    it->seen[thread] = load(thread == 0 ? &it->y : &it->x);
}

#define BUFFERING(name)                                          \
    static void with_##name(struct round *it, unsigned thread)   \
    {                                                            \
        buffering(it, thread, name);                             \
    }
BUFFERING(nothing)
BUFFERING(fence)
BUFFERING(weak_fence)
BUFFERING(load_both)
#ifdef WIDE
BUFFERING(change_wide)
#endif
BUFFERING(change)
BUFFERING(store_last)

/* Thread 0 stores to two variables, and thread 1 loads them the other way round. */
static void pass(struct round *it, unsigned thread)
{
    if (thread == 0) {
        store(&it->x, 1);
        atomic_store_explicit(&it->y, 1, memory_order_release);
    } else {
        it->seen[0] = load(&it->y);
        it->seen[1] = load(&it->x);
    }
}

/* The same with a plain store as the second one. */
static void pass_plain(struct round *it, unsigned thread)
{
    if (thread == 0) {
        store(&it->x, 1);
        it->plain = 1;
    } else {
        it->seen[0] = *(volatile uint64_t *)&it->plain;
        it->seen[1] = load(&it->x);
    }
}

/* The same by what fills or copies bytes, as some compilers call it. */
void *__tsan_memset(void *to, int byte, size_t bytes);
void *__tsan_memcpy(void *to, const void *from, size_t bytes);

static void pass_filled(struct round *it, unsigned thread)
{
    if (thread == 0) {
        store(&it->x, 1);
        __tsan_memset(&it->plain, 1, 1);
    } else
        pass_plain(it, thread);
}

static void pass_copied(struct round *it, unsigned thread)
{
    static const char one = 1;
    if (thread == 0) {
        store(&it->x, 1);
        __tsan_memcpy(&it->plain, &one, 1);
    } else
        pass_plain(it, thread);
}

/* Thread 1 loads a variable twice that thread 0 stores to twice. */
static void cohere(struct round *it, unsigned thread)
{
    if (thread == 0) {
        store(&it->x, 1);
        store(&it->x, 2);
    } else {
        it->seen[0] = load(&it->x);
        it->seen[1] = load(&it->x);
    }
}

/* A thread loads what it has stored itself: the newest; and each half of it. */
static void forward(struct round *it, unsigned thread)
{
    if (thread == 0) {
        store(&it->x, 2);
        store(&it->x, 1);
        it->seen[0] = load(&it->x);
    } else {
        store(&it->y, UINT64_C(1) << 32);
        it->seen[1] = atomic_load_explicit((_Atomic uint32_t *)(void *)&it->y + 1, memory_order_relaxed);
    }
}

/* What thread 0 has stored before the answer to its commit is there in the next round. */
static void answer(struct round *it, unsigned thread)
{
    if (thread == 0 || it == rounds)
        it->seen[thread] = 1;
    else
        it->seen[1] = load(&it[-1].z);
}

static bool stores_at_commit;

/* A litmus test: its name, a thread's part, and what may come out for each pair of values that are seen. */
enum may { NEVER, SOMETIMES, ANY };
static const struct litmus {
    const char *name;
    void (*part)(struct round *, unsigned thread);
    enum may may[VALUES][VALUES];
} tests[] = {
    {"SB", with_nothing, {{SOMETIMES, SOMETIMES, NEVER}, {SOMETIMES, ANY, NEVER}, {NEVER, NEVER, NEVER}}},
    {"SB, a fence", with_fence, {{NEVER, SOMETIMES, NEVER}, {SOMETIMES, SOMETIMES, NEVER}, {NEVER, NEVER, NEVER}}},
    {"SB, a weaker fence", with_weak_fence, {{SOMETIMES, SOMETIMES, NEVER}, {SOMETIMES, ANY, NEVER}, {NEVER, NEVER, NEVER}}},
    {"SB, loads", with_load_both, {{SOMETIMES, SOMETIMES, NEVER}, {SOMETIMES, ANY, NEVER}, {NEVER, NEVER, NEVER}}},
#ifdef WIDE
    {"SB, 16 bytes", with_change_wide, {{NEVER, SOMETIMES, NEVER}, {SOMETIMES, SOMETIMES, NEVER}, {NEVER, NEVER, NEVER}}},
#endif
    {"SB, a read-modify-write", with_change, {{NEVER, SOMETIMES, NEVER}, {SOMETIMES, SOMETIMES, NEVER}, {NEVER, NEVER, NEVER}}},
    {"SB, a seq_cst store", with_store_last, {{NEVER, SOMETIMES, NEVER}, {SOMETIMES, SOMETIMES, NEVER}, {NEVER, NEVER, NEVER}}},
    {"MP", pass, {{SOMETIMES, SOMETIMES, NEVER}, {NEVER, SOMETIMES, NEVER}, {NEVER, NEVER, NEVER}}},
    {"MP, a plain store", pass_plain, {{SOMETIMES, SOMETIMES, NEVER}, {NEVER, SOMETIMES, NEVER}, {NEVER, NEVER, NEVER}}},
    {"MP, memset", pass_filled, {{SOMETIMES, SOMETIMES, NEVER}, {NEVER, SOMETIMES, NEVER}, {NEVER, NEVER, NEVER}}},
    {"MP, memcpy", pass_copied, {{SOMETIMES, SOMETIMES, NEVER}, {NEVER, SOMETIMES, NEVER}, {NEVER, NEVER, NEVER}}},
    {"CoRR", cohere, {{SOMETIMES, SOMETIMES, SOMETIMES}, {NEVER, SOMETIMES, SOMETIMES}, {NEVER, NEVER, SOMETIMES}}},
    {"own stores", forward, {{NEVER, NEVER, NEVER}, {NEVER, SOMETIMES, NEVER}, {NEVER, NEVER, NEVER}}},
    {"answers", answer, {{NEVER, NEVER, NEVER}, {NEVER, SOMETIMES, NEVER}, {NEVER, NEVER, NEVER}}},
};
static const struct litmus *test;

static bool begin(void *memory, void *tx)
{
    (void)memory, (void)tx;
    return true;
}

/* The first look is thread 0's, and one comes at the end. */
static bool read(void *memory, void *tx, unsigned reg, uint64_t *value)
{
    unsigned thread = tmwatch_thread(), number = begun[thread]++;
    (void)memory, (void)tx, (void)reg;
    *value = 0;
    if (thread == 1 || number > 0)
        test->part(&rounds[thread == 0 ? number - 1 : number], thread);
    return true;
}

static bool write(void *memory, void *tx, unsigned reg, uint64_t value)
{
    (void)memory, (void)tx, (void)reg, (void)value;
    return false;
}

static bool commit(void *memory, void *tx)
{
    (void)memory, (void)tx;
    if (stores_at_commit && tmwatch_thread() == 0 && begun[0] > 1)
        store(&rounds[begun[0] - 2].z, 1);
    return true;
}

static void cancel(void *memory, void *tx)
{
    (void)memory, (void)tx;
}

/* Runs the test by each seed, and counts what comes out. */
static void run(unsigned long counts[VALUES][VALUES])
{
    static const tmwatch_memory memory = {NULL, 1, begin, read, write, NULL, commit, cancel, NULL};
    tmwatch_plan plan = TMWATCH_PLAN;
    tmwatch_bench_result result;
    plan.rounds = ROUNDS;
    plan.threads = 2;
    plan.registers = plan.accesses = 1;
    plan.writes = plan.adds = plan.aborts = plan.mixed_rounds = 0;
    plan.schedule = TMWATCH_STEPS;
    plan.orders = TMWATCH_X86;
    plan.plain = 1;
    stores_at_commit = test->part == answer;
    for (plan.seed = 1; plan.seed <= SEEDS * APART; plan.seed += APART) {
        memset(rounds, 0, sizeof rounds);
        begun[0] = begun[1] = 0;
        if (tmwatch_bench(&memory, &plan, &result) != TMWATCH_OK || result.result.verdict != TMWATCH_OPAQUE_SO_FAR)
            counts[VALUES - 1][0]++;
        for (unsigned i = 0; i < ROUNDS; i++)
            counts[rounds[i].seen[0] % VALUES][rounds[i].seen[1] % VALUES]++;
    }
}

int main(void)
{
    int status = 0;
    for (test = tests; test < tests + sizeof tests / sizeof tests[0]; test++) {
        unsigned long counts[VALUES][VALUES] = {{0}};
        run(counts);
        printf("%s:", test->name);
        for (unsigned i = 0; i < VALUES * VALUES; i++) {
            unsigned long count = counts[i / VALUES][i % VALUES];
            enum may may = test->may[i / VALUES][i % VALUES];
            bool is_wrong = (may == NEVER && count > 0) || (may == SOMETIMES && count == 0);
            if (count > 0 || is_wrong)
                printf(" %u%u %lu%s", i / VALUES, i % VALUES, count, is_wrong ? " WRONG" : "");
            status = is_wrong ? 1 : status;
        }
        putchar('\n');
    }
    return status;
}
