/*
A watch that judges EVENTS events of a running ring, eight in each round: one thread writes the round's number in a transaction, and another
one reads it.

    forgets EVENTS
*/
#include "tmwatch.h"
#include <stdlib.h>

static tmwatch watch;
static tmwatch_recorder recorders[2];

/* Records a round: whether each event was recorded. */
static bool has_recorded(uint64_t round)
{
    tmwatch_recorder *writer = &recorders[0], *reader = &recorders[1];
    uint32_t wrong = tmwatch_write(writer, 0, round) | tmwatch_written(writer) | tmwatch_commit(writer) | tmwatch_committed(writer);
    wrong |= tmwatch_read(reader, 0) | tmwatch_value(reader, round) | tmwatch_commit(reader) | tmwatch_committed(reader);
    return wrong == TMWATCH_OK;
}

int main(int count, char **words)
{
    tmwatch_settings settings = TMWATCH_SETTINGS(1);
    tmwatch_result result;
    uint64_t rounds = count == 2 ? strtoull(words[1], NULL, 10) / 8 : 0, judged;
    settings.cells = 16;
    if (tmwatch_open(&watch, recorders, 2, &settings) != TMWATCH_OK)
        return 1;
    for (uint64_t round = 0; round < rounds; round++)
        if (!has_recorded(round) || tmwatch_pump(&watch, 8, &judged) != TMWATCH_OK || judged != 8)
            return 1;
    if (tmwatch_close(&watch, recorders, 2, &result) != TMWATCH_OK)
        return 1;
    return result.events == 8 * rounds && result.verdict == TMWATCH_OPAQUE_SO_FAR ? 0 : 1;
}
