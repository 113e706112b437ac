/* What the tests share. */
#ifndef CHECK_H
#define CHECK_H

#include "tmwatch.h"
#include <stdio.h>
#include <stdlib.h>
#include <string.h>

#define CHECK(test)                                                            \
    do {                                                                       \
        if (!(test)) {                                                         \
            fprintf(stderr, "%s:%d: not so: %s\n", __FILE__, __LINE__, #test); \
            exit(1);                                                           \
        }                                                                      \
    } while (0)

static inline bool is_empty(const tmwatch *watch)
{
    return !watch->at && !watch->full;
}

/* Whether none of these handles holds anything. */
static inline bool are_empty(const tmwatch_recorder *recorders, size_t count)
{
    for (size_t i = 0; i < count; i++)
        if (recorders[i].at || recorders[i].full || recorders[i].number)
            return false;
    return true;
}

/* Thread 0 writes 1 to register 0 and has not asked to commit, and thread 1 reads it: violated at 4. */
static inline void record_dirty_read(tmwatch_recorder *recorders)
{
    CHECK(tmwatch_write(&recorders[0], 0, 1) == TMWATCH_OK);
    CHECK(tmwatch_written(&recorders[0]) == TMWATCH_OK);
    CHECK(tmwatch_read(&recorders[1], 0) == TMWATCH_OK);
    CHECK(tmwatch_value(&recorders[1], 1) == TMWATCH_OK);
}

static inline bool tells(tmwatch_result result, uint64_t events, uint32_t verdict, uint64_t at, uint32_t why)
{
    return result.events == events && result.verdict == verdict && result.at == at && result.why == why;
}

#endif
