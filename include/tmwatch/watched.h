/*
Replaces the recorder of examples/recorders by a watch in the same process. Compile a program of that folder, or the one of examples/libitm,
with

    -include tmwatch/watched.h

Then the program is judged as it runs. Instead of the trace, its last line is the verdict on all events, and it ends with the exit status that
`tmwatch judge` has for that verdict: 0 opaque so far, 1 violated, 2 undecided, 3 malformed; 4 if standard output failed. The status that
main returns is lost.

Each event is recorded with one call that never waits, because the ring has room for all events between two calls of write_events. So events
may be recorded within a transaction, no matter which locks the memory holds then.
*/
#ifndef RECORDER_H
#define RECORDER_H

#include "tmwatch.h"
#include <stdatomic.h>
#include <stdint.h>
#include <stdio.h>
#include <stdlib.h>

enum { RECORDERS = 8 };

/* An event, for programs that record some events later. */
struct event {
    uint64_t value;
    uint8_t thread, reg;
    char kind;
};

static tmwatch watch;
static tmwatch_recorder recorders[RECORDERS];
static tmwatch_settings settings = TMWATCH_SETTINGS(1);
static tmwatch_result result;

static inline void expect_done(const char *what, uint32_t status)
{
    if (status == TMWATCH_OK)
        return;
    fprintf(stderr, "recorder: %s was answered %u\n", what, (unsigned)status);
    abort();
}

static inline void record(unsigned thread, char kind, unsigned reg, uint64_t value)
{
    uint64_t place;
    expect_done("an event", tmwatch_record(&recorders[thread], (uint32_t)kind, reg, value, &place));
}

/* Runs when the program ends. Writes the verdict, and ends the program with its status. */
static void write_verdict(void)
{
    static const char *const verdicts[] = {"opaque so far", "violated", "undecided", "malformed"};
    printf("%s at %llu of %llu events\n", verdicts[result.verdict], (unsigned long long)result.at, (unsigned long long)result.events);
    if (fflush(NULL) == 0 && !ferror(stdout))
        _Exit((int)result.verdict);
    fputs("recorder: standard output failed\n", stderr);
    _Exit(4);
}

static inline void write_header(unsigned registers)
{
    settings.registers = registers;
    atexit(write_verdict);
}

/* Judges the events that were recorded since the last call. Always called by the same thread, and for the first time before any event. No
   thread may record during the call. */
static inline void write_events(void)
{
    uint64_t judged;
    if (!watch.full)
        expect_done("the opening", tmwatch_open(&watch, recorders, RECORDERS, &settings));
    expect_done("the judging", tmwatch_pump(&watch, UINT64_MAX, &judged));
    expect_done("the report", tmwatch_report(&watch, &result));
}

#endif
