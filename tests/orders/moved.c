/*
What bench-c/second_runs.c makes of a record in which a load's answer comes after a later store: the trace, whole; and whether it is violated
since the load has returned what is stored.
*/
#include "../../bench-c/tmwatch_bench.c"
#include "../c/check.h"

enum { READER, WRITER, OTHER, PARTS, BEFORE = 0, STORED = 7, OWN = 5, START = 3, ANSWERED = 3, BIG = 120000 };

static struct bench bench;
static struct second_runs runs;

/* The record of these events after so many others, of so many registers; which of them is the answer, and how many come before the store. */
struct record {
    const struct kept *events;
    uint64_t count, before, answered, stored, registers;
};

static bool shows(struct record it)
{
    static const tmwatch_delay made = {.loader = READER, .storer = WRITER, .before = BEFORE, .value = STORED};
    memset(bench.kept, 0, sizeof bench.kept);
    bench.plan = filled_plan(&(tmwatch_plan)TMWATCH_PLAN, usual);
    bench.plan.registers = it.registers;
    for (unsigned reg = 0; reg < it.registers; reg++)
        bench.plan.start[reg] = reg * START;
    for (uint64_t i = 0; i < it.count; i++)
        bench.kept[(it.before + i) % KEPT] = it.events[i];
    runs.delays = (tmwatch_delays){.made = &made, .answered = it.before + it.answered, .stored = it.before + it.stored};
    bench.steps.recorded = it.before + it.count;
    return is_violated_by_load(&bench, &runs);
}

#define SHOWS(events, ...) shows((struct record){events, sizeof events / sizeof events[0], __VA_ARGS__})

/* Thread 0 reads what thread 1 stores then, and has committed before. */
#define READS {0, READER, 0, 'R', 0}, {0, READER, 0, 'V', 0}, {0, READER, 0, 'T', 0}, {0, READER, 0, 'C', 0}
#define LOOK_OF(one, other)                                                                                                                   \
    {0, OTHER, 0, 'R', 0}, {one, OTHER, 0, 'V', 0}, {0, OTHER, 1, 'R', 0}, {other, OTHER, 0, 'V', 0}, {0, OTHER, 0, 'T', 0},                  \
        {0, OTHER, 0, 'C', true}

static void check_traces(void)
{
    static const struct kept live[] = {{0, WRITER, 1, 'R', 0}, {START, WRITER, 0, 'V', 0}, READS, {STORED, WRITER, 0, 'W', 0}};
    static const struct kept pending[] = {{0, WRITER, 1, 'R', 0}, {START, WRITER, 0, 'V', 0}, READS, {STORED, WRITER, 0, 'W', 0},
                                          {0, WRITER, 0, 'K', 0}, {0, WRITER, 0, 'T', 0}};
    static const struct kept met[] = {{0, WRITER, 1, 'R', 0}, {START, WRITER, 0, 'V', 0}, {0, READER, 0, 'R', 0}, {0, READER, 0, 'V', 0},
                                      {OWN, READER, 1, 'W', 0}, {0, READER, 0, 'K', 0}, {0, READER, 0, 'T', 0}, {0, OTHER, 1, 'R', 0},
                                      {OWN, OTHER, 0, 'V', 0}, {STORED, WRITER, 0, 'W', 0}};
    CHECK(SHOWS(live, 0, ANSWERED, 7, 3));
    CHECK(strcmp(runs.trace, "opacity-trace 2 3 0 3 6\n1 R 1\n1 V 3\n0 R 0\n1 W 0 7\n0 V 7\n0 T\n0 C\n") == 0);
    CHECK(SHOWS(live, 0, ANSWERED, 7, MOST_REGISTERS));
    CHECK(strncmp(runs.trace, "opacity-trace 2 8 0 3 6 9 12 15 18 21\n", 38) == 0);
    CHECK(!SHOWS(pending, 0, ANSWERED, 9, 3));
    CHECK(!SHOWS(met, 0, ANSWERED, 10, 3));
}

/* The trace begins at the last look before the store. */
static void check_looks(void)
{
    static const struct kept looked[] = {LOOK_OF(0, 3), {9, WRITER, 1, 'W', 0}, {0, WRITER, 0, 'K', 0}, {0, WRITER, 0, 'T', 0},
                                         {0, WRITER, 0, 'C', 0}, LOOK_OF(0, 9), {0, WRITER, 1, 'R', 0}, {9, WRITER, 0, 'V', 0}, READS,
                                         {STORED, WRITER, 0, 'W', 0}, {0, WRITER, 0, 'K', 0}, LOOK_OF(0, 9)};
    static const char trace[] = "opacity-trace 2 2 0 9\n1 R 1\n1 V 9\n0 R 0\n1 W 0 7\n0 V 7\n0 T\n0 C\n";
    for (uint64_t before = 0; before < 3 * KEPT; before += KEPT - 11) {
        CHECK(SHOWS(looked, before, 19, 23, 2));
        CHECK(strcmp(runs.trace, trace) == 0);
    }
}

/* A record of so many reads before: it is shown if its trace finds room. */
static bool shows_long(uint64_t reads)
{
    static const struct kept read[] = {{0, OTHER, 1, 'R', 0}, {START, OTHER, 0, 'V', 0}, {0, OTHER, 0, 'T', 0}, {0, OTHER, 0, 'C', 0}};
    static const struct kept last[] = {READS, {STORED, WRITER, 0, 'W', 0}};
    static struct kept all[BIG];
    for (uint64_t i = 0; i < reads; i++)
        memcpy(&all[4 * i], read, sizeof read);
    memcpy(&all[4 * reads], last, sizeof last);
    return shows((struct record){all, 4 * reads + 5, 0, 4 * reads + 1, 4 * reads + 4, 2});
}

int main(void)
{
    check_traces();
    check_looks();
    CHECK(shows_long(2000) && !shows_long(BIG / 4 - 2));
    return 0;
}
