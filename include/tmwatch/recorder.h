/*
Records the calls of threads and the answers to them, and writes them as a trace for `tmwatch judge`. Threads and registers have the numbers
0 to 7. Record a call before you call the memory, and the answer after the memory has returned (docs/RECORDING.md).
*/
#ifndef RECORDER_H
#define RECORDER_H

#include <stdatomic.h>
#include <stdint.h>
#include <stdio.h>
#include <stdlib.h>

/* Maximum number of events between two calls of write_events. Compile with -DROOM=N for another number. */
#ifndef ROOM
#define ROOM 65536
#endif

struct event {
    uint64_t value;
    uint8_t thread, reg;
    char kind;
};

static struct event events[ROOM];
static atomic_size_t recorded;

/* Stores the event at the next place in the one order of all threads' events. What a thread does before it records an event happens before (as
   in C11) what another thread does after it got a later place. Calls abort(), which ends the process, if there is no room. */
static inline void record(unsigned thread, char kind, unsigned reg, uint64_t value)
{
    size_t place = atomic_fetch_add(&recorded, 1);
    if (place >= ROOM) {
        fputs("recorder: no room for the event\n", stderr);
        abort();
    }
    events[place] = (struct event){value, (uint8_t)thread, (uint8_t)reg, kind};
}

static inline void write_header(unsigned registers)
{
    printf("opacity-trace 1 %u\n", registers);
}

/* Writes to standard output the events that were recorded since write_events was last called, without flushing it. No thread may record during
   the call. */
static inline void write_events(void)
{
    size_t count = atomic_exchange(&recorded, 0);
    for (const struct event *event = events; event < events + count; event++) {
        if (event->kind == 'R')
            printf("%u R %u\n", event->thread, event->reg);
        else if (event->kind == 'V')
            printf("%u V %llu\n", event->thread, (unsigned long long)event->value);
        else if (event->kind == 'W')
            printf("%u W %u %llu\n", event->thread, event->reg, (unsigned long long)event->value);
        else
            printf("%u %c\n", event->thread, event->kind);
    }
}

#endif
