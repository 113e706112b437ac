/* Judges the trace on standard input by the library, and prints as the bench does. The exit status is the verdict's number. */
#include "tmwatch_bench.h"
#include "check.h"

enum { THREADS = 8 };

static tmwatch watch;
static tmwatch_recorder recorders[THREADS];

static uint64_t next_number(void)
{
    unsigned long long number;
    CHECK(scanf("%llu", &number) == 1);
    return number;
}

/* Judges all that is recorded. */
static void pump(void)
{
    uint64_t judged;
    do
        CHECK(tmwatch_pump(&watch, 64, &judged) == TMWATCH_OK);
    while (judged > 0);
}

int main(void)
{
    tmwatch_bench_result out;
    uint64_t thread, place;
    char letter;
    memset(&out, 0, sizeof out);
    CHECK(scanf("opacity-trace 2") == 0);
    tmwatch_settings settings = TMWATCH_SETTINGS(next_number());
    for (unsigned reg = 0; reg < settings.registers; reg++)
        settings.start[reg] = next_number();
    CHECK(tmwatch_open(&watch, recorders, THREADS, &settings) == TMWATCH_OK);
    while (scanf(" %1lu %c", &thread, &letter) == 2) {
        uint64_t reg = strchr("RWN", letter) ? next_number() : 0, value = strchr("VWN", letter) ? next_number() : 0;
        CHECK(tmwatch_record(&recorders[thread], (uint32_t)letter, reg, value, &place) == TMWATCH_OK);
        pump();
    }
    CHECK(tmwatch_summary(&watch, &out.counts) == TMWATCH_OK);
    CHECK(tmwatch_close(&watch, recorders, THREADS, &out.result) == TMWATCH_OK);
    tmwatch_bench_print(stdout, &out);
    return (int)out.result.verdict;
}
