/*
A memory of one lock on the bench, which a thread holds from a transaction's beginning to its end. It writes in place, with no order but the
lock's; by -DPLAIN its words are plain data. The lock is one of the table below, as -DLOCK= or the environment's LOCK says; the word `names`
alone prints those that the bench sees. Those of READ_WRITE are taken for writing by one transaction in two. By ONCE and CALL_ONCE
transactions also look for what one in four of them makes; by BARRIER they meet a thread of the memory's own; by FIRST all wait until thread 0
has a mutex that it waits for. By EVENT the lock is one that the bench doesn't see.

Three are wrong. By LOST a signal may come between the look at the lock and the wait for it, and is lost; by RELAXED the lock orders
nothing. By LATE some transactions wait for a while where the bench doesn't see it, and later ones read a wrong value.
*/
#define _GNU_SOURCE
#include "tmwatch_bench.h"
#include <poll.h>
#include <pthread.h>
#include <sched.h>
#include <semaphore.h>
#include <stdatomic.h>
#include <stdlib.h>
#include <string.h>
#include <sys/eventfd.h>
#include <threads.h>
#include <time.h>
#include <unistd.h>

#ifndef LOCK
#define LOCK MUTEX
#endif
#ifdef PLAIN
typedef uint64_t word;
#define LOAD(word) (word)
#define STORE(word, value) ((word) = (value))
#else
typedef _Atomic uint64_t word;
#define LOAD(word) atomic_load_explicit(&(word), memory_order_relaxed)
#define STORE(word, value) atomic_store_explicit(&(word), value, memory_order_relaxed)
#endif

enum { REGISTERS = 8, LATER = 1000, MADE = 1 << 18, WAITED = 400, WAITS = 4, WRONG = 800, WHILE = 1000 };

struct tx {
    bool only_reads;
    uint64_t begun, before[REGISTERS];
};

static word words[REGISTERS];
static pthread_mutex_t mutex = PTHREAD_MUTEX_INITIALIZER;
static pthread_cond_t is_free = PTHREAD_COND_INITIALIZER;
static pthread_rwlock_t shared = PTHREAD_RWLOCK_INITIALIZER;
static pthread_spinlock_t spin;
static pthread_barrier_t barrier;
static sem_t semaphore;
static mtx_t mutex_c11;
static cnd_t is_free_c11;
static atomic_bool is_held;
static bool is_taken;
static int event;

/* A time that doesn't come. */
static const struct timespec *later(clockid_t clock)
{
    static _Thread_local struct timespec time;
    clock_gettime(clock, &time);
    time.tv_sec += LATER;
    return &time;
}
#define REAL later(CLOCK_REALTIME)
#define STEADY CLOCK_MONOTONIC, later(CLOCK_MONOTONIC)

/* A lock by a condition: how it is locked, waited for and signalled. */
#define BY_CONDITION(name, lock, unlock, wait, signal) \
    static void take_##name(void)                      \
    {                                                  \
        lock;                                          \
        while (is_taken)                               \
            wait;                                      \
        is_taken = true;                               \
        unlock;                                        \
    }                                                  \
    static void give_##name(void)                      \
    {                                                  \
        lock;                                          \
        is_taken = false;                              \
        signal;                                        \
        unlock;                                        \
    }
#define MUTEX_CONDITION(name, wait, signal) \
    BY_CONDITION(name, pthread_mutex_lock(&mutex), pthread_mutex_unlock(&mutex), wait, signal(&is_free))
#define C11_CONDITION(name, wait, signal) \
    BY_CONDITION(name, mtx_lock(&mutex_c11), mtx_unlock(&mutex_c11), wait, signal(&is_free_c11))
MUTEX_CONDITION(condition, pthread_cond_wait(&is_free, &mutex), pthread_cond_signal)
MUTEX_CONDITION(timed, pthread_cond_timedwait(&is_free, &mutex, REAL), pthread_cond_signal)
MUTEX_CONDITION(clocked, pthread_cond_clockwait(&is_free, &mutex, STEADY), pthread_cond_signal)
C11_CONDITION(cnd, cnd_wait(&is_free_c11, &mutex_c11), cnd_signal)
C11_CONDITION(cnd_timed, cnd_timedwait(&is_free_c11, &mutex_c11, REAL), cnd_signal)

/* By tickets, so that all have to be told: each waits for its own. */
#define BY_TICKETS(name, lock, unlock, wait, signal) \
    static unsigned given_##name, served_##name;     \
    static void take_##name(void)                    \
    {                                                \
        lock;                                        \
        unsigned own = given_##name++;               \
        while (served_##name != own)                 \
            wait;                                    \
        unlock;                                      \
    }                                                \
    static void give_##name(void)                    \
    {                                                \
        lock;                                        \
        served_##name++;                             \
        signal;                                      \
        unlock;                                      \
    }
BY_TICKETS(broadcast, pthread_mutex_lock(&mutex), pthread_mutex_unlock(&mutex), pthread_cond_wait(&is_free, &mutex),
           pthread_cond_broadcast(&is_free))
BY_TICKETS(cnd_broadcast, mtx_lock(&mutex_c11), mtx_unlock(&mutex_c11), cnd_wait(&is_free_c11, &mutex_c11), cnd_broadcast(&is_free_c11))

static void wait_late(void)
{
    pthread_mutex_unlock(&mutex);
    TMWATCH_PAUSE();
    pthread_mutex_lock(&mutex);
    pthread_cond_wait(&is_free, &mutex);
}
MUTEX_CONDITION(lost, wait_late(), pthread_cond_signal)

/* What one transaction in four makes, and all four find. */
static pthread_once_t onces[MADE];
static once_flag flags[MADE];
static unsigned made[MADE];
static atomic_uint tickets;
static _Thread_local unsigned now;

static void make(void)
{
    made[now] = now + 1;
    TMWATCH_PAUSE();
}

static void take_once(bool is_c11)
{
    now = (atomic_fetch_add_explicit(&tickets, 1, memory_order_relaxed) >> 2) % MADE;
    if (is_c11)
        call_once(&flags[now], make);
    else
        pthread_once(&onces[now], make);
    if (made[now] != now + 1)
        abort();
    pthread_mutex_lock(&mutex);
}

/* How many transactions the memory's own thread has met. */
static unsigned served;

static void *serve(void *unused)
{
    for (;;) {
        pthread_barrier_wait(&barrier);
        served++;
        pthread_barrier_wait(&barrier);
    }
    return unused;
}

static void meet_server(void)
{
    pthread_barrier_wait(&barrier);
    pthread_barrier_wait(&barrier);
}

/* A lock that orders nothing but by the barrier. */
static void take_served(void)
{
    static unsigned taken;
    while (atomic_exchange_explicit(&is_held, true, memory_order_relaxed))
        ;
    meet_server();
    if (served != 2 * taken++ + 1)
        abort();
}

static void give_served(void)
{
    meet_server();
    atomic_store_explicit(&is_held, false, memory_order_relaxed);
}

static void take_event(void)
{
    uint64_t one;
    while (read(event, &one, sizeof one) != sizeof one)
        ;
}

static void give_event(void)
{
    static const uint64_t one = 1;
    if (write(event, &one, sizeof one) != sizeof one)
        abort();
}

/* A mutex that others leave to thread 0 if that waits for it. */
static atomic_bool is_awaited;

static void leave_to_first(void)
{
    while (atomic_load_explicit(&is_awaited, memory_order_relaxed))
        sched_yield();
}

static void take_after_first(void)
{
    bool is_first = tmwatch_thread() == 0;
    if (!is_first)
        leave_to_first();
    else
        atomic_store_explicit(&is_awaited, true, memory_order_relaxed);
    pthread_mutex_lock(&mutex);
    if (is_first)
        atomic_store_explicit(&is_awaited, false, memory_order_relaxed);
}

static void give_to_first(void)
{
    pthread_mutex_unlock(&mutex);
    leave_to_first();
}

/* Tries again until it is taken. */
#define UNTIL_DONE(failed) while (failed)
#define UNTIL_FREE(pause)                                                  \
    while (atomic_exchange_explicit(&is_held, true, memory_order_acquire)) \
    pause
/* A wait that says that it has waited. */
#define WELL(wait) ((wait) == 0 ? (void)0 : abort())
#define FREE atomic_store_explicit(&is_held, false, memory_order_release)
static const struct timespec moment = {0, 100000000};
#define MICROSECONDS 100000

/* How many transactions have taken the lock. */
static unsigned late;

static void take_late(void)
{
    pthread_mutex_lock(&mutex);
    if (++late >= WAITED && late < WAITED + WAITS)
        poll(NULL, 0, WHILE);
}

/* Each lock: its name, how it is taken, by a transaction that only reads or not, and how it is given back. */
#define KINDS                                                                                                                              \
    KIND(MUTEX, pthread_mutex_lock(&mutex), pthread_mutex_unlock(&mutex))                                                                  \
    KIND(TRY, UNTIL_DONE(pthread_mutex_trylock(&mutex)), pthread_mutex_unlock(&mutex))                                                     \
    KIND(MUTEX_TIMED, UNTIL_DONE(pthread_mutex_timedlock(&mutex, REAL)), pthread_mutex_unlock(&mutex))                                     \
    KIND(MUTEX_CLOCKED, UNTIL_DONE(pthread_mutex_clocklock(&mutex, STEADY)), pthread_mutex_unlock(&mutex))                                 \
    KIND(SPIN, pthread_spin_lock(&spin), pthread_spin_unlock(&spin))                                                                       \
    KIND(SPIN_TRY, UNTIL_DONE(pthread_spin_trylock(&spin)), pthread_spin_unlock(&spin))                                                    \
    KIND(READ_WRITE, only_reads ? pthread_rwlock_rdlock(&shared) : pthread_rwlock_wrlock(&shared), pthread_rwlock_unlock(&shared))         \
    KIND(READ_WRITE_TRY, UNTIL_DONE(only_reads ? pthread_rwlock_tryrdlock(&shared) : pthread_rwlock_trywrlock(&shared)),                   \
         pthread_rwlock_unlock(&shared))                                                                                                   \
    KIND(READ_WRITE_TIMED, UNTIL_DONE(only_reads ? pthread_rwlock_timedrdlock(&shared, REAL) : pthread_rwlock_timedwrlock(&shared, REAL)), \
         pthread_rwlock_unlock(&shared))                                                                                                   \
    KIND(READ_WRITE_CLOCKED,                                                                                                               \
         UNTIL_DONE(only_reads ? pthread_rwlock_clockrdlock(&shared, STEADY) : pthread_rwlock_clockwrlock(&shared, STEADY)),               \
         pthread_rwlock_unlock(&shared))                                                                                                   \
    KIND(CONDITION, take_condition(), give_condition())                                                                                    \
    KIND(TIMED, take_timed(), give_timed())                                                                                                \
    KIND(CLOCKED, take_clocked(), give_clocked())                                                                                          \
    KIND(BROADCAST, take_broadcast(), give_broadcast())                                                                                    \
    KIND(SEMAPHORE, sem_wait(&semaphore), sem_post(&semaphore))                                                                            \
    KIND(SEMAPHORE_TRY, UNTIL_DONE(sem_trywait(&semaphore)), sem_post(&semaphore))                                                         \
    KIND(SEMAPHORE_TIMED, UNTIL_DONE(sem_timedwait(&semaphore, REAL)), sem_post(&semaphore))                                               \
    KIND(SEMAPHORE_CLOCKED, UNTIL_DONE(sem_clockwait(&semaphore, STEADY)), sem_post(&semaphore))                                           \
    KIND(MTX, mtx_lock(&mutex_c11), mtx_unlock(&mutex_c11))                                                                                \
    KIND(MTX_TRY, UNTIL_DONE(mtx_trylock(&mutex_c11) != thrd_success), mtx_unlock(&mutex_c11))                                             \
    KIND(MTX_TIMED, UNTIL_DONE(mtx_timedlock(&mutex_c11, REAL) != thrd_success), mtx_unlock(&mutex_c11))                                   \
    KIND(CND, take_cnd(), give_cnd())                                                                                                      \
    KIND(CND_TIMED, take_cnd_timed(), give_cnd_timed())                                                                                    \
    KIND(CND_BROADCAST, take_cnd_broadcast(), give_cnd_broadcast())                                                                        \
    KIND(ONCE, take_once(false), pthread_mutex_unlock(&mutex))                                                                             \
    KIND(CALL_ONCE, take_once(true), pthread_mutex_unlock(&mutex))                                                                         \
    KIND(BARRIER, take_served(), give_served())                                                                                            \
    KIND(YIELD, UNTIL_FREE(WELL(sched_yield())), FREE)                                                                                     \
    KIND(YIELD_C11, UNTIL_FREE(thrd_yield()), FREE)                                                                                        \
    KIND(SLEEP, UNTIL_FREE(WELL(nanosleep(&moment, NULL))), FREE)                                                                          \
    KIND(SLEEP_CLOCKED, UNTIL_FREE(WELL(clock_nanosleep(CLOCK_MONOTONIC, 0, &moment, NULL))), FREE)                                        \
    KIND(SLEEP_SHORT, UNTIL_FREE(WELL(usleep(MICROSECONDS))), FREE)                                                                        \
    KIND(SLEEP_C11, UNTIL_FREE(WELL(thrd_sleep(&moment, NULL))), FREE)                                                                     \
    KIND(FIRST, take_after_first(), give_to_first())                                                                                       \
    KIND(EVENT, take_event(), give_event())                                                                                                \
    KIND(LOST, take_lost(), give_lost())                                                                                                   \
    KIND(RELAXED, UNTIL_DONE(atomic_exchange_explicit(&is_held, true, memory_order_relaxed)),                                              \
         atomic_store_explicit(&is_held, false, memory_order_relaxed))                                                                     \
    KIND(LATE, take_late(), pthread_mutex_unlock(&mutex))
#define KIND(name, take, give) name,
enum lock { KINDS };
#undef KIND
#define KIND(name, take, give) [name] = #name,
static const char *const names[] = {KINDS};
#undef KIND
static enum lock kind = LOCK;

static void take(bool only_reads)
{
    switch (kind) {
#define KIND(name, take, give) \
    case name:                 \
        take;                  \
        (void)only_reads;      \
        break;
        KINDS
#undef KIND
    }
}

static void give(void)
{
    switch (kind) {
#define KIND(name, take, give) \
    case name:                 \
        give;                  \
        break;
        KINDS
#undef KIND
    }
}

static bool is_shared(void)
{
    return kind >= READ_WRITE && kind <= READ_WRITE_CLOCKED;
}

static bool begin(void *memory, void *tx)
{
    struct tx *it = tx;
    (void)memory;
    it->only_reads = is_shared() && it->begun++ % 2 == 0;
    take(it->only_reads);
    for (unsigned reg = 0; reg < REGISTERS; reg++)
        it->before[reg] = LOAD(words[reg]);
    return true;
}

static bool read_value(void *memory, void *tx, unsigned reg, uint64_t *value)
{
    (void)memory, (void)tx;
    *value = LOAD(words[reg]) + (late > WRONG);
    TMWATCH_PAUSE();
    return true;
}

/* A transaction that only reads ends where it is to write. */
static bool write_value(void *memory, void *tx, unsigned reg, uint64_t value)
{
    (void)memory;
    if (((struct tx *)tx)->only_reads) {
        give();
        return false;
    }
    STORE(words[reg], value);
    TMWATCH_PAUSE();
    return true;
}

static bool commit(void *memory, void *tx)
{
    (void)memory, (void)tx;
    give();
    return true;
}

static void cancel(void *memory, void *tx)
{
    struct tx *it = tx;
    (void)memory;
    for (unsigned reg = 0; reg < REGISTERS && !it->only_reads; reg++)
        STORE(words[reg], it->before[reg]);
    give();
}

static const tmwatch_memory memory = {NULL, sizeof(struct tx), begin, read_value, write_value, NULL, commit, cancel, NULL};

int main(int count, char **given)
{
    pthread_t server;
    const char *wanted = getenv("LOCK");
    for (unsigned i = 0; i < sizeof names / sizeof names[0]; i++)
        if (wanted && strcmp(names[i], wanted) == 0)
            kind = i;
    if (count == 2 && strcmp(given[1], "names") == 0) {
        for (unsigned i = 0; i < EVENT; i++)
            puts(names[i]);
        return 0;
    }
    pthread_spin_init(&spin, PTHREAD_PROCESS_PRIVATE);
    pthread_barrier_init(&barrier, NULL, 2);
    sem_init(&semaphore, 0, 1);
    mtx_init(&mutex_c11, mtx_timed);
    cnd_init(&is_free_c11);
    event = eventfd(1, EFD_SEMAPHORE);
    for (unsigned i = 0; i < MADE; i++) {
        onces[i] = (pthread_once_t)PTHREAD_ONCE_INIT;
        flags[i] = (once_flag)ONCE_FLAG_INIT;
    }
    if (kind == BARRIER && pthread_create(&server, NULL, serve, NULL) != 0)
        return 1;
    return tmwatch_bench_main(&memory, count, given);
}
