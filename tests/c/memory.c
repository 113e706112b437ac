/*
Want of memory at each call for some, and whether any stays behind. A run of eight threads over seven registers, which has 64 states at a
time and a reader of one of them. Half of it is pumped, and the rest is judged by the close, or discarded. Judging takes no memory.
*/
#include "check.h"
#include "heap.h"

enum { WRITERS = 7, THREADS = 8, HALF = 20, EVENTS = 46, CELLS = 64, SOON = 1000, OPENS = 10000 };

static tmwatch watch;
static tmwatch_recorder recorders[THREADS];

static void record_write(unsigned thread, unsigned number)
{
    CHECK(tmwatch_write(&recorders[thread], number, thread + 1) == TMWATCH_OK);
    CHECK(tmwatch_written(&recorders[thread]) == TMWATCH_OK);
}

/* Seven writers, each of one register with the thread before it and of one with the thread behind it, and then a reader. */
static void record_all(void)
{
    unsigned long before = calls;
    CHECK(tmwatch_room(&recorders[0], EVENTS) == TMWATCH_OK && tmwatch_room(&recorders[0], CELLS) == TMWATCH_FULL);
    for (unsigned thread = 0; thread < WRITERS; thread++) {
        if (thread > 0)
            record_write(thread, thread - 1);
        if (thread < WRITERS - 1)
            record_write(thread, thread);
    }
    for (unsigned thread = 0; thread < WRITERS; thread++)
        CHECK(tmwatch_commit(&recorders[thread]) == TMWATCH_OK);
    for (unsigned thread = 0; thread < WRITERS; thread++)
        CHECK(tmwatch_committed(&recorders[thread]) == TMWATCH_OK);
    /* The last of two writers of register 0 may be either, and so of register 5. */
    CHECK(tmwatch_read(&recorders[7], 0) == TMWATCH_OK && tmwatch_value(&recorders[7], 1) == TMWATCH_OK);
    CHECK(tmwatch_read(&recorders[7], 5) == TMWATCH_OK && tmwatch_value(&recorders[7], 6) == TMWATCH_OK);
    CHECK(tmwatch_commit(&recorders[7]) == TMWATCH_OK && tmwatch_committed(&recorders[7]) == TMWATCH_OK);
    CHECK(tmwatch_read(&recorders[7], 0) == TMWATCH_OK && tmwatch_value(&recorders[7], 2) == TMWATCH_OK);
    /* Neither recording nor asking for room takes memory. */
    CHECK(calls == before);
}

static bool tells_all(tmwatch_result result)
{
    return tells(result, EVENTS, TMWATCH_VIOLATED, EVENTS, 0);
}

/* Opens a watch, as soon as there is memory; before that all is empty and nothing is taken. */
static void open_soon(void)
{
    tmwatch_settings settings = TMWATCH_SETTINGS(7);
    settings.cells = CELLS;
    for (int tries = 0;; tries++) {
        uint32_t status = tmwatch_open(&watch, recorders, THREADS, &settings);
        if (status == TMWATCH_OK)
            return;
        CHECK(status == TMWATCH_NO_MEMORY && tries < SOON);
        CHECK(is_empty(&watch) && are_empty(recorders, THREADS) && blocks == 0);
        refuses_all = false;
    }
}

/* Judges half of the events, which takes no memory. */
static void pump_half(void)
{
    unsigned long before = calls;
    uint64_t judged = 99;
    tmwatch_result result;
    CHECK(tmwatch_pump(&watch, HALF, &judged) == TMWATCH_OK && judged == HALF);
    CHECK(tmwatch_report(&watch, &result) == TMWATCH_OK && tells(result, HALF, TMWATCH_OPAQUE_SO_FAR, 0, 0));
    CHECK(calls == before);
}

/* Closes the watch, as soon as there is memory. Before that all handles are as they were. */
static tmwatch_result close_soon(void)
{
    tmwatch_result result = {9, 9, 9, 9};
    tmwatch_recorder before[THREADS];
    memcpy(before, recorders, sizeof before);
    for (int tries = 0;; tries++) {
        uint32_t status = tmwatch_close(&watch, recorders, THREADS, &result);
        if (status == TMWATCH_OK)
            return result;
        CHECK(status == TMWATCH_NO_MEMORY && tries < SOON && tells(result, 9, 9, 9, 9) && !is_empty(&watch));
        CHECK(memcmp(before, recorders, sizeof before) == 0);
        refuses_all = false;
    }
}

/* A whole run, in which this call for memory is refused: whether there was such a call. */
static bool run(unsigned long number, bool all)
{
    calls = 0;
    refused = number;
    refuses_all = all;
    open_soon();
    record_all();
    pump_half();
    CHECK(tells_all(close_soon()));
    CHECK(is_empty(&watch) && are_empty(recorders, THREADS) && blocks == 0 && bytes == 0);
    return refused <= calls;
}

/* All calls for memory in a close are refused, from this one on: the close can be made again. */
static bool close_refused(unsigned long number)
{
    calls = refused = 0;
    open_soon();
    record_all();
    calls = 0;
    refused = number;
    refuses_all = true;
    tmwatch_result result = {9, 9, 9, 9};
    uint32_t status = TMWATCH_NO_MEMORY;
    for (int tries = 0; tries < 3 && status == TMWATCH_NO_MEMORY; tries++)
        status = tmwatch_close(&watch, recorders, THREADS, &result);
    bool had = status == TMWATCH_NO_MEMORY;
    CHECK(had || status == TMWATCH_OK);
    CHECK(had == tells(result, 9, 9, 9, 9));
    refused = 0;
    if (had)
        result = close_soon();
    CHECK(tells_all(result) && blocks == 0 && bytes == 0);
    return had;
}

/* What is discarded gives all back, also what was recorded and not judged. */
static void discard_all(void)
{
    calls = refused = 0;
    open_soon();
    record_all();
    pump_half();
    for (unsigned thread = 0; thread < THREADS; thread++)
        tmwatch_discard_recorder(&recorders[thread]);
    tmwatch_discard(&watch);
    CHECK(is_empty(&watch) && are_empty(recorders, THREADS) && blocks == 0 && bytes == 0);
}

int main(void)
{
    unsigned long one = 1, from = 1, closing = 1;
    while (run(one, false))
        one++;
    while (run(from, true))
        from++;
    discard_all();
    while (close_refused(closing))
        closing++;
    CHECK(one > 12 && from > 12 && closing > 3);
    peak = 0;
    run(0, false);
    long first = peak;
    for (int i = 0; i < OPENS; i++)
        run(0, false);
    CHECK(peak == first);
    printf("refused %lu calls for memory, %lu with those behind, %lu in a close; %d opens and closes take %ld bytes at most\n", one - 1,
           from - 1, closing - 1, OPENS, first);
    return 0;
}
