/* Threads that record the run of a little memory, a correct one and a broken one, and one that has them judged meanwhile. */
#define _POSIX_C_SOURCE 200809L
#include "check.h"
#include <pthread.h>
#include <sched.h>

enum { THREADS = 3, EACH = 500, EVENTS = 6 };

static tmwatch watch;
static tmwatch_recorder recorders[THREADS];
static pthread_mutex_t lock = PTHREAD_MUTEX_INITIALIZER;
static uint64_t memory;
/* A broken memory forgets each tenth write of a thread, though it has committed it. */
static bool is_broken;

/* Records an event, for which there is room. */
static void record(tmwatch_recorder *recorder, uint32_t letter, uint64_t value)
{
    uint64_t place;
    CHECK(tmwatch_record(recorder, letter, 0, value, &place) == TMWATCH_OK);
}

/* Takes the lock where there is room for a transaction's events. Only who holds the lock records, so that there is room until it is given
   back, and nobody waits for room with the lock. */
static void lock_with_room(tmwatch_recorder *recorder)
{
    uint32_t status;
    pthread_mutex_lock(&lock);
    while ((status = tmwatch_room(recorder, EVENTS)) == TMWATCH_FULL) {
        pthread_mutex_unlock(&lock);
        sched_yield();
        pthread_mutex_lock(&lock);
    }
    CHECK(status == TMWATCH_OK);
}

/* Adds one to the register in a transaction, whose events are recorded while the lock is held. */
static void add_one(tmwatch_recorder *recorder, bool forgets)
{
    lock_with_room(recorder);
    uint64_t read = memory;
    if (!forgets)
        memory = read + 1;
    record(recorder, 'R', 0);
    record(recorder, 'V', read);
    record(recorder, 'W', read + 1);
    record(recorder, 'K', 0);
    record(recorder, 'T', 0);
    record(recorder, 'C', 0);
    pthread_mutex_unlock(&lock);
}

static void *record_run(void *recorder)
{
    for (int done = 0; done < EACH; done++)
        add_one(recorder, is_broken && done % 10 == 9);
    return NULL;
}

/* Judges the events as they come, and tells what was judged. */
static tmwatch_result pump_all(uint64_t count)
{
    tmwatch_result result;
    do {
        uint64_t judged;
        CHECK(tmwatch_pump(&watch, 64, &judged) == TMWATCH_OK);
        CHECK(tmwatch_report(&watch, &result) == TMWATCH_OK);
        if (judged == 0)
            sched_yield();
    } while (result.events < count);
    return result;
}

static tmwatch_result run(bool broken)
{
    const uint64_t count = THREADS * EACH * EVENTS;
    tmwatch_settings settings = TMWATCH_SETTINGS(1);
    pthread_t threads[THREADS];
    tmwatch_result result, all;
    is_broken = broken;
    memory = 0;
    settings.cells = 16;
    CHECK(tmwatch_open(&watch, recorders, THREADS, &settings) == TMWATCH_OK);
    for (int i = 0; i < THREADS; i++)
        CHECK(pthread_create(&threads[i], NULL, record_run, &recorders[i]) == 0);
    result = pump_all(count);
    for (int i = 0; i < THREADS; i++)
        CHECK(pthread_join(threads[i], NULL) == 0);
    CHECK(tmwatch_close(&watch, recorders, THREADS, &all) == TMWATCH_OK);
    CHECK(is_empty(&watch) && are_empty(recorders, THREADS));
    CHECK(result.events == count && memcmp(&result, &all, sizeof result) == 0);
    return all;
}

int main(void)
{
    tmwatch_result result = run(false);
    CHECK(result.verdict == TMWATCH_OPAQUE_SO_FAR && result.at == 0);
    result = run(true);
    /* Within the first ten transactions of some thread, and the one behind: at the answer to its read. */
    CHECK(result.verdict == TMWATCH_VIOLATED && result.at % EVENTS == 2 && result.at <= EVENTS * (THREADS * 10 + 1));
    return 0;
}
