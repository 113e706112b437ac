/*
What runs of two threads have shown, counted. The numbers were worked out by hand.

    counted           checks all runs
    counted NUMBER    writes the trace of this run, and then its counts as `judge --summary` does
*/
#define _POSIX_C_SOURCE 200809L
#include "tmwatch/kept.h"
#include "check.h"
#include <pthread.h>

enum { THREADS = 2 };

static tmwatch watch;
static tmwatch_recorder recorders[THREADS];
static pthread_barrier_t barrier;
static const tmwatch_settings settings = TMWATCH_SETTINGS(1);
static const tmwatch_counts uncounted = {9, 9, 9, 9, 9, 9, 9, 9, 9};

static void record(unsigned thread, char letter, uint64_t value)
{
    CHECK(kept_record(&recorders[thread], thread, letter, 0, value) == TMWATCH_OK);
}

/* Records events of register 0: of each its thread and its letter, and after V and W a value. */
static void record_all(const char *events)
{
    while (*events) {
        unsigned thread = (unsigned)(*events++ - '0');
        char letter = *events++;
        record(thread, letter, letter == 'V' || letter == 'W' ? (uint64_t)(*events++ - '0') : 0);
    }
}

/* A transaction that reads. Where there are two threads at a time, they meet in it. */
static void *read_once(void *recorder)
{
    unsigned thread = (unsigned)((tmwatch_recorder *)recorder - recorders);
    record(thread, 'R', 0);
    pthread_barrier_wait(&barrier);
    record(thread, 'V', 0);
    record(thread, 'T', 0);
    record(thread, 'C', 0);
    return NULL;
}

/* Runs both threads, so many at a time. */
static void run_threads(unsigned at_once)
{
    pthread_t threads[THREADS];
    CHECK(pthread_barrier_init(&barrier, NULL, at_once) == 0);
    for (unsigned from = 0; from < THREADS; from += at_once) {
        for (unsigned i = from; i < from + at_once; i++)
            CHECK(pthread_create(&threads[i], NULL, read_once, &recorders[i]) == 0);
        for (unsigned i = from; i < from + at_once; i++)
            CHECK(pthread_join(threads[i], NULL) == 0);
    }
    pthread_barrier_destroy(&barrier);
}

static const struct run {
    const char *events;  /* or NULL */
    unsigned at_once;    /* else how many threads run at a time */
    uint32_t verdict;
    tmwatch_counts counts;
} runs[] = {
    /* Both threads at a time. */
    {NULL, 2, TMWATCH_OPAQUE_SO_FAR, {0, 2, 1, 0, 2, 2, 0, 2, 0}},
    /* Two threads that never meet. */
    {NULL, 1, TMWATCH_OPAQUE_SO_FAR, {0, 2, 2, 0, 0, 2, 0, 1, 1}},
    /* Each count is another number: two transactions alone; one during which there are three; two forced aborts; two that commit; and a
       live one. */
    {"0T0C1T1C" "0R1T1C1T1C1X1A0V00T0C" "0R1R0A1A" "0T1T0C1C" "1R", 0, TMWATCH_OPAQUE_SO_FAR, {3, 7, 5, 1, 8, 11, 2, 4, 0}},
    /* One thread alone has none to meet. */
    {"0T0C0T0C", 0, TMWATCH_OPAQUE_SO_FAR, {0, 2, 2, 0, 0, 2, 0, 1, 0}},
    /* Violated at the fourth event: those after it don't count, though they are judged. */
    {"0W10K1R1V10T0C1X1A", 0, TMWATCH_VIOLATED, {0, 0, 0, 2, 2, 2, 0, 2, 0}},
    /* Malformed at the fifth event, which doesn't count either. */
    {"0T0C1T1C1C0R", 0, TMWATCH_MALFORMED, {0, 2, 2, 0, 0, 2, 0, 1, 1}},
    /* Nothing was recorded. */
    {"", 0, TMWATCH_OPAQUE_SO_FAR, {0, 0, 0, 0, 0, 0, 0, 0, 0}},
};

enum { RUNS = sizeof runs / sizeof runs[0] };

static bool are_same(tmwatch_counts one, tmwatch_counts other)
{
    return one.aborted == other.aborted && one.committed == other.committed && one.cuts == other.cuts && one.live == other.live
           && one.concurrent == other.concurrent && one.transactions == other.transactions && one.forced_aborts == other.forced_aborts
           && one.max_window == other.max_window && one.none_overlapped == other.none_overlapped;
}

/* Makes a run and closes it, and answers with its counts. */
static tmwatch_counts count(const struct run *run, tmwatch_result *result)
{
    tmwatch_counts counts = uncounted;
    uint64_t judged;
    CHECK(tmwatch_summary(&watch, &counts) == TMWATCH_NO_HANDLE && are_same(counts, uncounted));
    CHECK(tmwatch_open(&watch, recorders, THREADS, &settings) == TMWATCH_OK);
    if (run->events)
        record_all(run->events);
    else
        run_threads(run->at_once);
    /* What isn't judged isn't counted. */
    CHECK(tmwatch_summary(&watch, &counts) == TMWATCH_OK && are_same(counts, runs[RUNS - 1].counts));
    do
        CHECK(tmwatch_pump(&watch, 3, &judged) == TMWATCH_OK);
    while (judged > 0);
    CHECK(tmwatch_summary(&watch, &counts) == TMWATCH_OK);
    CHECK(tmwatch_close(&watch, recorders, THREADS, result) == TMWATCH_OK && result->verdict == run->verdict);
    CHECK(is_empty(&watch) && are_empty(recorders, THREADS));
    return counts;
}

static void write_counts(tmwatch_counts counts)
{
    printf("{\"aborted\":%llu,\"committed\":%llu,\"concurrent\":%llu,\"cuts\":%llu,", (unsigned long long)counts.aborted,
           (unsigned long long)counts.committed, (unsigned long long)counts.concurrent, (unsigned long long)counts.cuts);
    printf("\"forced_aborts\":%llu,\"live\":%llu,\"max_window\":%llu,\"transactions\":%llu}\n", (unsigned long long)counts.forced_aborts,
           (unsigned long long)counts.live, (unsigned long long)counts.max_window, (unsigned long long)counts.transactions);
}

int main(int words_count, char **words)
{
    tmwatch_result result;
    if (words_count > 1) {
        tmwatch_counts counts = count(&runs[strtoul(words[1], NULL, 10) % RUNS], &result);
        kept_write(stdout, &settings, result.events);
        write_counts(counts);
        return 0;
    }
    for (int i = 0; i < RUNS; i++)
        CHECK(are_same(count(&runs[i], &result), runs[i].counts));
    return 0;
}
