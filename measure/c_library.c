/*
The cost of the C library: nanoseconds for recording an event, compared with a recorder in C that appends to an array with one addition, and
with the same atomic steps of the ring in a few lines of C, for one, two and three threads; for judging an event; and the bytes of the heap
after few and many events.

    c [EVENTS]
*/
#define _GNU_SOURCE
#include "tmwatch.h"
#include <malloc.h>
#include <pthread.h>
#include <stdatomic.h>
#include <stdio.h>
#include <stdlib.h>
#include <time.h>

/* A burst has as many events as stand in the ring at once, less one for each thread. */
enum { CELLS = 4096, THREADS = 3, BURST = CELLS - 16, TIMES = 301 };

struct event {
    uint64_t value;
    uint8_t thread, reg;
    char kind;
};

static struct event events[CELLS];
static atomic_size_t recorded;
static tmwatch watch;
static tmwatch_recorder recorders[THREADS];

static inline void append(uint8_t thread, char kind, uint8_t reg, uint64_t value)
{
    size_t place = atomic_fetch_add(&recorded, 1);
    if (place >= CELLS)
        abort();
    events[place] = (struct event){value, thread, reg, kind};
}

static void appends(unsigned thread, unsigned count)
{
    for (unsigned i = 0; i < count; i += 4) {
        append((uint8_t)thread, 'R', 0, 0);
        append((uint8_t)thread, 'V', 0, 0);
        append((uint8_t)thread, 'T', 0, 0);
        append((uint8_t)thread, 'C', 0, 0);
    }
}

/* The ring's words: tail, front on a line of the cache of its own, and two for each cell, of which neighbours share no line. */
enum { TAIL = 0, FRONT = 16, FIRST_CELL = 32 };
static _Alignas(128) _Atomic uint64_t words[FIRST_CELL + 2 * CELLS];

/* The atomic steps of a record, each sequentially consistent as the library's are. */
static inline void step(uint64_t header, uint64_t value)
{
    uint64_t front = words[FRONT], tail = words[TAIL];
    if (tail > (UINT64_C(1) << 40) - THREADS || tail - front > CELLS - THREADS)
        abort();
    uint64_t place = atomic_fetch_add(&words[TAIL], 1);
    uint64_t number = place & (CELLS - 1), crossed = number / 16 * 16 + number % 4 * 4 + number / 4 % 4;
    _Atomic uint64_t *cell = &words[FIRST_CELL + 2 * crossed];
    cell[1] = value;
    cell[0] = (place + 1) << 10 | header;
}

static void steps(unsigned thread, unsigned count)
{
    for (unsigned i = 0; i < count; i += 4) {
        step(thread << 7 | 0, 0);
        step(thread << 7 | 16, 0);
        step(thread << 7 | 32, 0);
        step(thread << 7 | 48, 0);
    }
}

static void records(unsigned thread, unsigned count)
{
    tmwatch_recorder *recorder = &recorders[thread];
    uint32_t wrong = 0;
    for (unsigned i = 0; i < count; i += 4) {
        wrong |= tmwatch_read(recorder, 0);
        wrong |= tmwatch_value(recorder, 0);
        wrong |= tmwatch_commit(recorder);
        wrong |= tmwatch_committed(recorder);
    }
    if (wrong)
        abort();
}

static double now(void)
{
    struct timespec time;
    clock_gettime(CLOCK_MONOTONIC, &time);
    return (double)time.tv_sec * 1e9 + (double)time.tv_nsec;
}

static int compare(const void *left, const void *right)
{
    double difference = *(const double *)left - *(const double *)right;
    return (difference > 0) - (difference < 0);
}

static double median(double *taken, size_t count)
{
    qsort(taken, count, sizeof *taken, compare);
    return taken[count / 2];
}

/* Threads that each make their part of every burst at once. */
static void (*burst)(unsigned, unsigned);
static unsigned workers;
static atomic_uint turn, done;
static double taken[TIMES][THREADS];

static void work(unsigned thread, unsigned time)
{
    unsigned count = BURST / workers / 4 * 4;
    double began = now();
    burst(thread, count);
    taken[time][thread] = (now() - began) / count;
}

static void *work_all(void *argument)
{
    unsigned thread = (unsigned)(uintptr_t)argument;
    for (unsigned time = 0; time < TIMES; time++) {
        while (turn <= time)
            continue;
        work(thread, time);
        done++;
    }
    return NULL;
}

static void empty_all(void)
{
    uint64_t judged;
    recorded = 0;
    words[FRONT] = words[TAIL];
    if (tmwatch_pump(&watch, UINT64_MAX, &judged) != TMWATCH_OK)
        abort();
}

/* The median nanoseconds of an event, over all threads and bursts. */
static double measure(void (*of)(unsigned, unsigned), unsigned count)
{
    pthread_t threads[THREADS];
    double all[TIMES * THREADS];
    burst = of;
    workers = count;
    turn = done = 0;
    for (unsigned i = 1; i < workers; i++)
        if (pthread_create(&threads[i], NULL, work_all, (void *)(uintptr_t)i) != 0)
            abort();
    for (unsigned time = 0; time < TIMES; time++) {
        turn = time + 1;
        work(0, time);
        while (done < (time + 1) * (workers - 1))
            continue;
        empty_all();
    }
    for (unsigned i = 1; i < workers; i++)
        pthread_join(threads[i], NULL);
    for (unsigned time = 0; time < TIMES; time++)
        for (unsigned i = 0; i < workers; i++)
            all[time * workers + i] = taken[time][i];
    return median(all, TIMES * workers);
}

static void open_watch(size_t count)
{
    tmwatch_settings settings = TMWATCH_SETTINGS(1);
    if (tmwatch_open(&watch, recorders, count, &settings) != TMWATCH_OK)
        abort();
}

/* Closes the watch, whose verdict has to be this one. */
static void close_watch(size_t count, uint32_t verdict)
{
    tmwatch_result result;
    if (tmwatch_close(&watch, recorders, count, &result) != TMWATCH_OK || result.verdict != verdict)
        abort();
}

/* Transactions of all threads that overlap, each thread's next event in turn. */
static void records_in_turn(unsigned threads, unsigned count)
{
    uint32_t wrong = 0;
    for (unsigned i = 0; i < count; i += 4 * threads) {
        for (unsigned thread = 0; thread < threads; thread++)
            wrong |= tmwatch_read(&recorders[thread], 0);
        for (unsigned thread = 0; thread < threads; thread++)
            wrong |= tmwatch_value(&recorders[thread], 0);
        for (unsigned thread = 0; thread < threads; thread++)
            wrong |= tmwatch_commit(&recorders[thread]);
        for (unsigned thread = 0; thread < threads; thread++)
            wrong |= tmwatch_committed(&recorders[thread]);
    }
    if (wrong)
        abort();
}

/* The median nanoseconds of an event that is judged. */
static double measure_pump(unsigned threads)
{
    double all[TIMES];
    open_watch(threads);
    for (unsigned time = 0; time < TIMES; time++) {
        uint64_t judged;
        records_in_turn(threads, BURST / 12 * 12);
        double began = now();
        if (tmwatch_pump(&watch, UINT64_MAX, &judged) != TMWATCH_OK || judged != BURST / 12 * 12)
            abort();
        all[time] = (now() - began) / (double)judged;
    }
    close_watch(threads, TMWATCH_OPAQUE_SO_FAR);
    return median(all, TIMES);
}

/* The heap's bytes after so many events, and the seconds in which they were recorded and judged. */
static void show_heap(uint64_t count)
{
    tmwatch_result result = {0, 0, 0, 0};
    double began = now();
    size_t before = mallinfo2().uordblks;
    open_watch(THREADS);
    while (result.events < count) {
        records_in_turn(THREADS, BURST / 12 * 12);
        empty_all();
        if (tmwatch_report(&watch, &result) != TMWATCH_OK)
            abort();
    }
    printf("heap after %12llu events: %8zu bytes, in %.1f seconds\n", (unsigned long long)result.events, mallinfo2().uordblks - before,
           (now() - began) / 1e9);
    close_watch(THREADS, TMWATCH_OPAQUE_SO_FAR);
}

int main(int count, char **words)
{
    uint64_t many = count > 1 ? strtoull(words[1], NULL, 10) : 100000000;
    printf("threads  append ns  steps ns  record ns  record/append  record/steps\n");
    for (unsigned threads = 1; threads <= THREADS; threads++) {
        open_watch(THREADS);
        double by_append = measure(appends, threads), by_step = measure(steps, threads), by_record = measure(records, threads);
        tmwatch_discard(&watch);
        for (unsigned i = 0; i < THREADS; i++)
            tmwatch_discard_recorder(&recorders[i]);
        printf("%7u %10.1f %9.1f %10.1f %14.2f %13.2f\n", threads, by_append, by_step, by_record, by_record / by_append,
               by_record / by_step);
    }
    for (unsigned threads = 1; threads <= THREADS; threads += 2) {
        double pumped = measure_pump(threads);
        printf("judging, transactions of %u threads: %.1f ns an event, %.1f million events a second\n", threads, pumped, 1e3 / pumped);
    }
    show_heap(BURST / 12 * 12);
    show_heap(many);
    return 0;
}
