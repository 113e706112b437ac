/*
A memory whose lock is elsewhere, as that of a server, so that the bench doesn't see who waits for it. One answer takes longer than a stall.
FAULT: UNASKED, the bench isn't told that the memory asks and waits; FAILS, a call gets no answer; READS, nothing is locked; CRAWLS, each
read takes long; CRASHES, it crashes, and then holds what is on its disk; LOSES, that lacks what was committed in the
second half of the calls before. After a crash those who waited go on without the lock, so that what they share is atomic.
*/
#define _POSIX_C_SOURCE 200809L
#include "tmwatch_bench.h"
#include <errno.h>
#include <semaphore.h>
#include <stdatomic.h>
#include <time.h>

enum { REGISTERS = 8 };
enum { NONE, UNASKED, FAILS, READS, CRAWLS, CRASHES, LOSES, CRASH_EACH = 300, SLOW_CALL = 20, FAILED_CALL = 40, LONG = 120 * 1000 * 1000, CRAWL = LONG / 100 /* nanoseconds */ };
#ifndef FAULT
#define FAULT NONE
#endif

struct tx {
    bool is_open;
    unsigned starts;
    uint64_t before[REGISTERS];
};

static _Atomic uint64_t words[REGISTERS], disk[REGISTERS];
static sem_t lock;
static atomic_uint calls, starts;
static atomic_bool has_crashed;

static bool begin(void *memory, void *tx)
{
    (void)memory, (void)tx;
    return true;
}

/* Takes the lock, unless the transaction has it, since the memory was started last. */
static void open_it(struct tx *tx)
{
    tx->is_open = tx->is_open && tx->starts == starts;
    tx->starts = starts;
    if (FAULT != UNASKED)
        tmwatch_external_call();
    if (tx->is_open || FAULT == READS)
        return;
    if (sem_trywait(&lock) != 0) {
        if (FAULT != UNASKED)
            tmwatch_external_blocked();
        while (sem_wait(&lock) != 0)
            ;
    }
    if (has_crashed)
        return;
    tx->is_open = true;
    for (int i = 0; i < REGISTERS; i++)
        tx->before[i] = words[i];
}

static void restart(void *memory)
{
    (void)memory;
    for (int i = 0; i < REGISTERS; i++)
        words[i] = disk[i];
    sem_destroy(&lock);
    sem_init(&lock, 0, 1);
    has_crashed = false;
    starts++;
}

/* Whoever waits goes on: nothing is recorded of it. */
static void crash(void)
{
    has_crashed = true;
    tmwatch_bench_crash(restart);
    for (int i = 0; i < REGISTERS; i++)
        sem_post(&lock);
}

/* What a read may do besides. */
static void be_slow_or_fail(void)
{
    const struct timespec time = {0, FAULT == CRAWLS ? CRAWL : LONG};
    const unsigned call = ++calls;
    if (call == SLOW_CALL || FAULT == CRAWLS)
        nanosleep(&time, NULL);
    if (FAULT == FAILS && call == FAILED_CALL)
        tmwatch_bench_fail("the disk is gone");
    if ((FAULT == CRASHES || FAULT == LOSES) && call % CRASH_EACH == 0 && !has_crashed)
        crash();
}

static bool read(void *memory, void *tx, unsigned reg, uint64_t *value)
{
    (void)memory;
    open_it(tx);
    be_slow_or_fail();
    *value = words[reg];
    return true;
}

static bool write(void *memory, void *tx, unsigned reg, uint64_t value)
{
    (void)memory;
    open_it(tx);
    words[reg] = value;
    return true;
}

static bool add(void *memory, void *tx, unsigned reg, uint64_t addend, uint64_t *before)
{
    return read(memory, tx, reg, before) && write(memory, tx, reg, *before + addend);
}

static bool close_it(struct tx *tx)
{
    if (tx->is_open && !has_crashed)
        sem_post(&lock);
    tx->is_open = false;
    return true;
}

static bool commit(void *memory, void *tx)
{
    (void)memory;
    if (FAULT != LOSES || calls % CRASH_EACH < CRASH_EACH / 2)
        for (int i = 0; i < REGISTERS; i++)
            disk[i] = words[i];
    return close_it(tx);
}

static void cancel(void *memory, void *tx)
{
    struct tx *it = tx;
    (void)memory;
    if (it->is_open && !has_crashed)
        for (int i = 0; i < REGISTERS; i++)
            words[i] = it->before[i];
    close_it(it);
}

int main(int count, char **given)
{
    static const tmwatch_memory memory = {NULL, sizeof(struct tx), begin, read, write, add, commit, cancel, NULL};
    return sem_init(&lock, 0, 1) != 0 ? 4 : tmwatch_bench_main(&memory, count, given);
}
