/*
A memory of one lock on the bench, which a thread holds from a transaction's beginning to its end. It writes in place, with no order but the
lock's. By -DLOCK= the lock is one of OpenMP's: SET, TEST or NEST, or a flag that is changed in a critical section (CRITICAL, NAMED) or
atomically (ATOMIC). Or it is tried by inline assembly, which the bench doesn't see: in a function that the compiler marks (MARKED), in one
that a marked function calls (CALLED), or in one that nothing but the bench calls (BEGIN); or a thread waits for it so (SPINS). By -DWRONG
half of the transactions take no lock.
*/
#include "tmwatch_bench.h"
#include <stdatomic.h>

enum { REGISTERS = 8 };
enum { MARKED, CALLED, BEGIN, SPINS, SET, TEST, NEST, CRITICAL, NAMED, ATOMIC };
static _Atomic uint64_t words[REGISTERS];
static _Thread_local uint64_t before[REGISTERS];
static _Thread_local unsigned char is_written[REGISTERS];

#ifdef _OPENMP
#include <omp.h>
static omp_lock_t lock;
static omp_nest_lock_t nest;
static long double flag;

static long double swap(long double value)
{
    long double was = 0;
    if (LOCK == CRITICAL) {
#pragma omp critical
        {
            was = flag;
            flag = value;
        }
    } else if (LOCK == NAMED) {
#pragma omp critical(name)
        {
            was = flag;
            flag = value;
        }
    } else {
#pragma omp atomic capture
        {
            was = flag;
            flag = value;
        }
    }
    return was;
}

static bool take(void)
{
    if (LOCK == SET)
        omp_set_lock(&lock);
    else if (LOCK == TEST)
        while (!omp_test_lock(&lock))
            ;
    else if (LOCK == NEST) {
        while (!omp_test_nest_lock(&nest))
            ;
        omp_set_nest_lock(&nest);
    } else
        while (swap(1) != 0)
            tmwatch_pause();
    return true;
}

static void give(void)
{
    if (LOCK == SET || LOCK == TEST)
        omp_unset_lock(&lock);
    else if (LOCK == NEST) {
        omp_unset_nest_lock(&nest);
        omp_unset_nest_lock(&nest);
    } else
        swap(0);
}

static void prepare(void)
{
    omp_init_lock(&lock);
    omp_init_nest_lock(&nest);
}
#else
static int held;

static inline int compare(void)
{
    int was = 0;
    __asm__ volatile("lock cmpxchgl %2, %1" : "+a"(was), "+m"(held) : "r"(1) : "memory");
    return was;
}

__attribute__((noinline)) static int exchange(void)
{
    int was = 1;
    __asm__ volatile("xchgl %0, %1" : "+r"(was), "+m"(held) : : "memory");
    return was;
}

static bool take(void)
{
    while (LOCK == SPINS && compare() != 0)
        ;
    return LOCK == SPINS || (LOCK == CALLED ? exchange() : compare()) == 0;
}

static void give(void)
{
    __asm__ volatile("movl $0, %0" : "=m"(held) : : "memory");
}

static void prepare(void) {}
#endif

static bool begin(void *memory, void *tx)
{
    (void)memory, (void)tx;
#ifdef WRONG
    static _Thread_local unsigned begun;
    if (begun++ % 2 == 0)
        return true;
#endif
    return take();
}

static bool read_value(void *memory, void *tx, unsigned reg, uint64_t *value)
{
    (void)memory, (void)tx;
    *value = atomic_load_explicit(&words[reg], memory_order_relaxed);
    return true;
}

static bool write_value(void *memory, void *tx, unsigned reg, uint64_t value)
{
    (void)memory, (void)tx;
    if (!is_written[reg])
        before[reg] = atomic_load_explicit(&words[reg], memory_order_relaxed);
    is_written[reg] = 1;
    atomic_store_explicit(&words[reg], value, memory_order_relaxed);
    return true;
}

static bool commit(void *memory, void *tx)
{
    (void)memory, (void)tx;
    for (unsigned reg = 0; reg < REGISTERS; reg++)
        is_written[reg] = 0;
    give();
    return true;
}

static void cancel(void *memory, void *tx)
{
    for (unsigned reg = 0; reg < REGISTERS; reg++)
        if (is_written[reg])
            atomic_store_explicit(&words[reg], before[reg], memory_order_relaxed);
    commit(memory, tx);
}

static const tmwatch_memory memory = {NULL, 1, begin, read_value, write_value, NULL, commit, cancel, NULL};

int main(int count, char **words_given)
{
    prepare();
    return tmwatch_bench_main(&memory, count, words_given);
}
