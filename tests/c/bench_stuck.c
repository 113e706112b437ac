/*
A memory of one lock on the bench, in which thread 1 forgets to unlock: by -DFAULT=SPIN the next transaction spins at its begin; by MUTEX
it waits for a mutex; by READ thread 1 never returns from a read of register 2, and by ADD from an add to it. By UNLOCKED thread 2 takes no
lock, so that the memory isn't opaque. By BOTH thread 1 reads a wrong value and then never returns. By SLOW a read takes three tenths of a second, by LONG
one. By TIRED a thread that waits for the lock sleeps for ten milliseconds before it tries again. By MEETS there is no lock, and two reads at
once return a wrong value. By these, and by NONE, nothing is forgotten. By NAPS it is, and waited for as by TIRED.
*/
#define _GNU_SOURCE
#include "tmwatch_bench.h"
#include <pthread.h>
#include <stdatomic.h>
#include <time.h>

#ifndef FAULT
#define FAULT NONE
#endif

enum { REGISTERS = 8 };
enum fault { NONE, SPIN, MUTEX, READ, ADD, UNLOCKED, BOTH, SLOW, LONG, TIRED, NAPS, MEETS };

struct tx {
    uint64_t before[REGISTERS];
};

static const enum fault fault = FAULT;
static const bool spins = FAULT == SPIN || FAULT == TIRED || FAULT == NAPS;
static atomic_uint_least64_t words[REGISTERS]; /* where threads take no lock, they race on none */
static pthread_mutex_t mutex = PTHREAD_MUTEX_INITIALIZER;
static atomic_bool is_locked;
static unsigned begun[REGISTERS];

static const struct timespec moment = {0, 10000000};

/* Whether this thread takes no lock. */
static bool is_unlocked(void)
{
    return fault == MEETS || (fault == UNLOCKED && tmwatch_thread() == 2);
}

static void lock(void)
{
    if (is_unlocked())
        return;
    if (spins)
        while (atomic_exchange(&is_locked, true)) {
            TMWATCH_PAUSE();
            if (fault != SPIN)
                nanosleep(&moment, NULL);
        }
    else
        pthread_mutex_lock(&mutex);
}

static void unlock(void)
{
    bool forgets = tmwatch_thread() == 1 && ++begun[1] > 20 && (fault == SPIN || fault == MUTEX || fault == NAPS);
    if (is_unlocked() || forgets)
        return;
    if (spins)
        is_locked = false;
    else
        pthread_mutex_unlock(&mutex);
}

static bool begin(void *memory, void *tx)
{
    (void)memory;
    lock();
    for (unsigned reg = 0; reg < REGISTERS; reg++)
        ((struct tx *)tx)->before[reg] = words[reg];
    return true;
}

/* Whether another thread is here meanwhile. */
static bool meets_another(void)
{
    static atomic_int inside;
    bool meets = ++inside > 1;
    for (int turn = 0; turn < 5000 && !meets; turn++)
        meets = inside > 1;
    inside--;
    return meets;
}

/* After a wrong value thread 1 doesn't return. */
static bool lies(void)
{
    static atomic_bool has_lied;
    bool is_due = fault == BOTH && tmwatch_thread() == 1 && begun[1] > 20;
    while (is_due && has_lied)
        TMWATCH_PAUSE();
    has_lied = has_lied || is_due;
    return is_due;
}

/* Milliseconds. */
static uint64_t now(void)
{
    struct timespec time;
    clock_gettime(CLOCK_MONOTONIC, &time);
    return (uint64_t)time.tv_sec * 1000 + (uint64_t)time.tv_nsec / 1000000;
}

static bool read_value(void *memory, void *tx, unsigned reg, uint64_t *value)
{
    (void)memory, (void)tx;
    for (uint64_t began = now(), most = fault == SLOW ? 300 : 100; (fault == SLOW || fault == LONG) && now() - began < most;)
        ;
    while (fault == READ && reg == 2 && tmwatch_thread() == 1 && begun[1] > 20)
        TMWATCH_PAUSE();
    *value = words[reg] + (fault == MEETS && meets_another()) + lies();
    TMWATCH_PAUSE();
    return true;
}

static bool write_value(void *memory, void *tx, unsigned reg, uint64_t value)
{
    (void)memory, (void)tx;
    words[reg] = value;
    return true;
}

static bool add(void *memory, void *tx, unsigned reg, uint64_t addend, uint64_t *before)
{
    (void)memory, (void)tx;
    while (fault == ADD && reg == 2 && tmwatch_thread() == 1 && begun[1] > 20)
        TMWATCH_PAUSE();
    *before = words[reg];
    words[reg] += addend;
    return true;
}

static bool commit(void *memory, void *tx)
{
    (void)memory, (void)tx;
    lies();
    unlock();
    return true;
}

static void cancel(void *memory, void *tx)
{
    (void)memory;
    for (unsigned reg = 0; reg < REGISTERS; reg++)
        words[reg] = ((struct tx *)tx)->before[reg];
    unlock();
}

static const tmwatch_memory memory = {NULL, sizeof(struct tx), begin, read_value, write_value, add, commit, cancel, NULL};

TMWATCH_BENCH_MAIN(memory)
