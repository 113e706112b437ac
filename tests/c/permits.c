/*
Threads that run freely over the little memory, record each attempt under a permit, and attempt a transaction again as often as it takes.
Now and then one takes all permits. The watch is to decide the run, and the log to keep the rule of tmwatch_permits.h.
*/
#define _POSIX_C_SOURCE 200809L
#include "tmwatch_permits.h"
#include "tmwatch/memory.h"
#include "check.h"
#include <pthread.h>

enum { THREADS = 8, EACH = 500, REGISTERS = 2, EVENTS = 6, MOST = 1 << 20 };

static tmwatch watch;
static tmwatch_recorder recorders[THREADS];
static tmwatch_permits permits = TMWATCH_ALL_FREE;
static _Atomic uint64_t words[REGISTERS];
/* An event: who has recorded it, and in which kind of attempt. */
static struct {
    unsigned thread;
    char letter;
    bool is_alone;
} events[MOST];
static _Atomic unsigned ended;

static void record(unsigned thread, char letter, uint64_t reg, uint64_t value, bool is_alone)
{
    uint64_t place;
    CHECK(tmwatch_record(&recorders[thread], (uint32_t)letter, reg, value, &place) == TMWATCH_OK && place < MOST);
    events[place].thread = thread;
    events[place].letter = letter;
    events[place].is_alone = is_alone;
}

/* Reads the register, writes a value and commits: false if the memory has aborted. */
static bool make_calls(struct tx *tx, unsigned thread, unsigned reg, uint64_t value, bool is_alone)
{
    uint64_t read;
    record(thread, 'R', reg, 0, is_alone);
    memory_begin(tx);
    if (!memory_read(tx, &words[reg], &read))
        return false;
    record(thread, 'V', 0, read, is_alone);
    sched_yield();
    record(thread, 'W', reg, value, is_alone);
    if (!memory_write(tx, &words[reg], value))
        return false;
    record(thread, 'K', 0, 0, is_alone);
    record(thread, 'T', 0, 0, is_alone);
    return memory_commit(tx);
}

static bool attempt(unsigned thread, unsigned reg, uint64_t value, bool is_alone)
{
    struct tx tx;
    uint32_t status;
    if (is_alone)
        tmwatch_permits_take_all(&permits);
    else
        tmwatch_permits_take(&permits);
    while ((status = tmwatch_room(&recorders[thread], 8 * EVENTS)) == TMWATCH_FULL)
        sched_yield();
    CHECK(status == TMWATCH_OK);
    bool has_committed = make_calls(&tx, thread, reg, value, is_alone);
    if (!has_committed)
        memory_undo(&tx);
    record(thread, has_committed ? 'C' : 'A', 0, 0, is_alone);
    tmwatch_permits_give(&permits);
    return has_committed;
}

static void *work(void *recorder)
{
    unsigned thread = (unsigned)((tmwatch_recorder *)recorder - recorders);
    for (unsigned done = 0; done < EACH; done++)
        while (!attempt(thread, done % REGISTERS, (uint64_t)done * THREADS + thread + 1, done % 16 == thread))
            ;
    ended++;
    return NULL;
}

/* Judges some of what is recorded: how many events. */
static uint64_t pump(void)
{
    uint64_t judged;
    CHECK(tmwatch_pump(&watch, 64, &judged) == TMWATCH_OK);
    return judged;
}

/* Looks whether at most eight attempts lie between two moments of rest, and who has all permits is alone. */
static void check_rule(uint64_t count)
{
    bool is_live[THREADS] = {false};
    unsigned live = 0, attempts = 0;
    for (uint64_t place = 0; place < count; place++) {
        unsigned thread = events[place].thread;
        if (!is_live[thread]) {
            is_live[thread] = true;
            live++;
            attempts++;
        }
        CHECK(attempts <= 8 && (!events[place].is_alone || (live == 1 && attempts == 1)));
        if (events[place].letter == 'C' || events[place].letter == 'A') {
            is_live[thread] = false;
            live--;
            attempts = live == 0 ? 0 : attempts;
        }
    }
    CHECK(live == 0);
}

int main(void)
{
    pthread_t threads[THREADS];
    tmwatch_settings settings = TMWATCH_SETTINGS(REGISTERS);
    tmwatch_counts counts;
    tmwatch_result result;
    settings.cells = 64;
    tmwatch_permits_init(&permits);
    CHECK(tmwatch_open(&watch, recorders, THREADS, &settings) == TMWATCH_OK);
    for (int i = 0; i < THREADS; i++)
        CHECK(pthread_create(&threads[i], NULL, work, &recorders[i]) == 0);
    while (ended < THREADS)
        if (pump() == 0)
            sched_yield();
    for (int i = 0; i < THREADS; i++)
        CHECK(pthread_join(threads[i], NULL) == 0);
    while (pump() > 0)
        ;
    CHECK(tmwatch_summary(&watch, &counts) == TMWATCH_OK);
    CHECK(tmwatch_close(&watch, recorders, THREADS, &result) == TMWATCH_OK);
    CHECK(result.verdict == TMWATCH_OPAQUE_SO_FAR && counts.committed == THREADS * EACH && counts.max_window <= 8);
    check_rule(result.events);
    printf("%lu attempts, of which up to %lu in a window\n", (unsigned long)counts.transactions, (unsigned long)counts.max_window);
    return 0;
}
