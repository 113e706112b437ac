/* A run of each kind of event that is kept, judged, and written as a trace up to where it is violated, and then whole. */
#include "tmwatch/kept.h"
#include "check.h"

static tmwatch watch;
static tmwatch_recorder recorders[2];

static void record(unsigned thread, char letter, unsigned reg, uint64_t value)
{
    CHECK(kept_record(&recorders[thread], thread, letter, reg, value) == TMWATCH_OK);
}

int main(void)
{
    tmwatch_settings settings = TMWATCH_SETTINGS(2);
    tmwatch_result result;
    settings.start[0] = 5;
    settings.start[1] = UINT64_MAX;
    CHECK(tmwatch_open(&watch, recorders, 2, &settings) == TMWATCH_OK);
    record(0, 'N', 1, 1);
    record(0, 'V', 0, UINT64_MAX);
    record(0, 'W', 0, 7);
    record(0, 'K', 0, 0);
    record(1, 'R', 0, 0);
    record(1, 'V', 0, 7);
    record(0, 'T', 0, 0);
    record(0, 'C', 0, 0);
    CHECK(kept_record(&recorders[1], 1, 'R', 2, 0) == TMWATCH_BAD_REGISTER);
    record(1, 'X', 0, 0);
    record(1, 'A', 0, 0);
    CHECK(tmwatch_close(&watch, recorders, 2, &result) == TMWATCH_OK);
    CHECK(tells(result, 10, TMWATCH_VIOLATED, 6, 0));
    kept_write(stdout, &settings, result.at);
    kept_write(stdout, &settings, result.events);
    return 0;
}
