/*
Stores the recorded events, so that a run that was judged by a watch can be written as a trace. `tmwatch show` then draws where it went wrong.

Use kept_record instead of the recording functions of tmwatch.h. When all threads have ended and the watch is closed, write the prefix that
the verdict names, or the whole run:

    kept_record(&recorders[2], 2, 'R', register_number, 0)      instead of tmwatch_read(&recorders[2], register_number)
    kept_write(file, &settings, result.verdict == TMWATCH_VIOLATED ? result.at : result.events)
*/
#ifndef KEPT_H
#define KEPT_H

#include "tmwatch.h"
#include <stdint.h>
#include <stdio.h>

/* Maximum number of stored events, 16 bytes each. Later events are recorded but not stored. */
enum { KEPT_MOST = 1 << 20 };

struct kept_event {
    uint64_t value;
    uint8_t thread, reg;
    char letter;
};

static struct kept_event kept_events[KEPT_MOST];

/* Records an event, as tmwatch_record does, and stores it at its place in the log. Returns the status of tmwatch_record. */
TMWATCH_PURE static inline uint32_t kept_record(tmwatch_recorder *recorder, unsigned thread, char letter, unsigned reg, uint64_t value)
{
    uint64_t place;
    uint32_t status = tmwatch_record(recorder, (uint32_t)letter, reg, value, &place);
    if (status == TMWATCH_OK && place < KEPT_MOST) {
        const struct kept_event event = {value, (uint8_t)thread, (uint8_t)reg, letter};
        kept_events[place] = event;
    }
    return status;
}

/* Writes the trace of the first `count` events, or of all stored events if these are fewer. */
static inline void kept_write(FILE *file, const tmwatch_settings *settings, uint64_t count)
{
    fprintf(file, "opacity-trace 2 %u", (unsigned)settings->registers);
    for (uint64_t reg = 0; reg < settings->registers; reg++)
        fprintf(file, " %llu", (unsigned long long)settings->start[reg]);
    fputc('\n', file);
    for (uint64_t place = 0; place < count && place < KEPT_MOST; place++) {
        const struct kept_event *event = &kept_events[place];
        fprintf(file, "%u %c", (unsigned)event->thread, event->letter);
        if (event->letter == 'R' || event->letter == 'W' || event->letter == 'N')
            fprintf(file, " %u", (unsigned)event->reg);
        if (event->letter == 'V' || event->letter == 'W' || event->letter == 'N')
            fprintf(file, " %llu", (unsigned long long)event->value);
        fputc('\n', file);
    }
}

#endif
