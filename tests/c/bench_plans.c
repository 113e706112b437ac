/*
Plans that the bench refuses, and what comes out of a memory for one thread, which has no lock.

    bench_plans           checks all
    bench_plans print     prints what may come out
*/
#define _GNU_SOURCE
#include "tmwatch_bench.h"
#include "check.h"
#include <stdatomic.h>
#include <time.h>

static uint64_t words[8];
static atomic_ulong calls;

static bool begin(void *memory, void *tx)
{
    (void)memory;
    memcpy(tx, words, sizeof words);
    return true;
}

static bool never(void *memory, void *tx)
{
    (void)memory, (void)tx;
    return false;
}

static bool read(void *memory, void *tx, unsigned reg, uint64_t *value)
{
    (void)tx;
    calls++;
    CHECK(memory == words);
    *value = words[reg];
    return true;
}

static bool write(void *memory, void *tx, unsigned reg, uint64_t value)
{
    (void)memory, (void)tx;
    words[reg] = value;
    return true;
}

static bool add(void *memory, void *tx, unsigned reg, uint64_t addend, uint64_t *before)
{
    return read(memory, tx, reg, before) && write(memory, tx, reg, *before + addend);
}

static bool commit(void *memory, void *tx)
{
    (void)memory, (void)tx;
    return true;
}

static void cancel(void *memory, void *tx)
{
    (void)memory;
    memcpy(words, tx, sizeof words);
}

/* Begins no attempt. */
static bool begin_none(void *memory, void *tx, tmwatch_attempt *attempt)
{
    (void)memory, (void)tx, (void)attempt;
    return false;
}

/* Begins until it may no more, which is after what the plan says. */
static bool begin_all(void *memory, void *tx, tmwatch_attempt *attempt)
{
    (void)memory, (void)tx;
    while (tmwatch_begin_attempt(attempt))
        calls++;
    return false;
}

/* Tells that it has committed, and has begun nothing. */
static bool commit_none(void *memory, void *tx, tmwatch_attempt *attempt)
{
    (void)memory, (void)tx, (void)attempt;
    return true;
}

/* Tells that it has committed what it has not even called. */
static bool call_none(void *memory, void *tx, tmwatch_attempt *attempt)
{
    (void)memory, (void)tx;
    return tmwatch_begin_attempt(attempt);
}

/* Tells that it has committed, also where it was told to abort. */
static bool commit_all(void *memory, void *tx, tmwatch_attempt *attempt)
{
    if (tmwatch_begin_attempt(attempt) && begin(memory, tx) && !tmwatch_run_body(attempt))
        cancel(memory, tx);
    return true;
}

/* Makes the calls of an attempt again. */
static bool call_twice(void *memory, void *tx, tmwatch_attempt *attempt)
{
    return tmwatch_begin_attempt(attempt) && begin(memory, tx) && tmwatch_run_body(attempt) && tmwatch_run_body(attempt);
}

static const tmwatch_memory memory = {words, sizeof words, begin, read, write, add, commit, cancel, NULL};
static const tmwatch_plan usual = TMWATCH_PLAN;

/* A plan for one thread, whose registers begin as the memory's. */
static tmwatch_plan one_thread(void)
{
    tmwatch_plan plan = usual;
    plan.rounds = 300;
    plan.threads = 1;
    plan.registers = 3;
    plan.adds = 20;
    plan.schedule = TMWATCH_ROUNDS;
    memcpy(plan.start, words, plan.registers * sizeof *words);
    return plan;
}

static void refuses(uint32_t status, const tmwatch_memory *it, tmwatch_plan plan)
{
    tmwatch_bench_result result, before;
    memset(&result, 7, sizeof result);
    memcpy(&before, &result, sizeof before);
    calls = 0;
    CHECK(tmwatch_bench(it, &plan, &result) == status);
    CHECK(memcmp(&before, &result, sizeof before) == 0 && calls == 0);
}

#define REFUSES(status, field, value)   \
    do {                                \
        tmwatch_plan plan = usual;      \
        plan.field = (value);           \
        refuses(status, &memory, plan); \
    } while (0)

static void refuse_plans(void)
{
    REFUSES(TMWATCH_BAD_SIZE, threads, 0);
    REFUSES(TMWATCH_BAD_SIZE, threads, 9);
    REFUSES(TMWATCH_BAD_REGISTERS, registers, 0);
    REFUSES(TMWATCH_BAD_REGISTERS, registers, 9);
    REFUSES(TMWATCH_BAD_START, start[3], 1);
    REFUSES(TMWATCH_BAD_BOUNDS, accesses, 0);
    REFUSES(TMWATCH_BAD_BOUNDS, accesses, 17);
    REFUSES(TMWATCH_BAD_BOUNDS, attempts, 3);
    REFUSES(TMWATCH_BAD_BOUNDS, schedule, 4);
    REFUSES(TMWATCH_BAD_BOUNDS, rounds, 0);
    REFUSES(TMWATCH_BAD_BOUNDS, mixed_rounds, 101);
    REFUSES(TMWATCH_BAD_BOUNDS, round, 20001);
    REFUSES(TMWATCH_BAD_BOUNDS, event, 1);
    REFUSES(TMWATCH_BAD_BOUNDS, blind_writes, 101);
    REFUSES(TMWATCH_BAD_BOUNDS, orders, TMWATCH_X86);
    REFUSES(TMWATCH_BAD_BOUNDS, orders, TMWATCH_CXX);
    REFUSES(TMWATCH_BAD_BOUNDS, orders, TMWATCH_CXX + 1);
    REFUSES(TMWATCH_BAD_BOUNDS, writes, 101);
    REFUSES(TMWATCH_BAD_BOUNDS, adds, 101);
    REFUSES(TMWATCH_BAD_BOUNDS, aborts, 101);
    REFUSES(TMWATCH_BAD_BOUNDS, pause, (1 << 20) + 1);
    for (int i = 0; i < 5; i++) {
        tmwatch_memory it = memory;
        if (i == 0)
            it.begin = NULL;
        else if (i == 1)
            it.read = NULL;
        else if (i == 2)
            it.write = NULL;
        else if (i == 3)
            it.commit = NULL;
        else
            it.abort = NULL;
        refuses(TMWATCH_MISSING_FUNCTION, &it, usual);
    }
}

static tmwatch_bench_result run(const tmwatch_memory *it, tmwatch_plan plan)
{
    tmwatch_bench_result result;
    CHECK(tmwatch_bench(it, &plan, &result) == TMWATCH_OK);
    return result;
}

/* A memory for one thread, again and again. A look comes before rounds 0, 64, .. and 300. */
static void run_one_thread(void)
{
    for (uint64_t seed = 1; seed < 20; seed++) {
        tmwatch_plan plan = one_thread();
        plan.seed = seed;
        plan.adds = seed * 5;
        tmwatch_bench_result out = run(&memory, plan);
        CHECK(out.result.verdict == TMWATCH_OPAQUE_SO_FAR && out.rounds == 300 && out.skipped == 0 && out.max_interleaved_commits == 0);
        CHECK(out.counts.transactions == 306 && out.counts.max_window == 1 && out.counts.concurrent == 0 && !out.counts.none_overlapped);
        CHECK(out.counts.forced_aborts == 0 && out.counts.aborted > 10 && out.counts.aborted + out.counts.committed == 306);
    }
}

/* What the memory holds is known from the first look on. */
static void find_another_start(void)
{
    tmwatch_plan plan = one_thread();
    plan.start[1]++;
    tmwatch_bench_result out = run(&memory, plan);
    CHECK(out.result.verdict == TMWATCH_VIOLATED && out.result.at == 4);
}

/* A memory that makes no progress from its first look on: how many attempts that has made. */
static uint64_t run_in_vain(const tmwatch_memory *it, tmwatch_plan plan)
{
    tmwatch_bench_result out;
    CHECK(tmwatch_bench(it, &plan, &out) == TMWATCH_NO_PROGRESS);
    CHECK(out.result.verdict == TMWATCH_OPAQUE_SO_FAR && out.counts.committed == 0 && out.counts.forced_aborts == out.counts.transactions);
    CHECK(out.solo_rollbacks >= 200 && out.counts.transactions == out.solo_rollbacks && out.rounds <= 1);
    return out.solo_rollbacks;
}

/* A memory that never begins, by each schedule; and runs that make no attempt, or many. */
static void run_idle(void)
{
    tmwatch_memory it = memory;
    tmwatch_plan plan = one_thread();
    it.begin = never;
    for (plan.schedule = TMWATCH_ROUNDS; plan.schedule <= TMWATCH_ALL; plan.schedule++)
        run_in_vain(&it, plan);
    it = memory;
    it.run = begin_none;
    tmwatch_bench_result out = run(&it, one_thread());
    CHECK(out.result.events == 0 && out.rounds == 300);
    plan.schedule = TMWATCH_PERMITS;
    plan.attempts = 10;
    out = run(&it, plan);
    CHECK(out.result.events == 0 && out.rounds == 300);
    tmwatch_plan legs = one_thread();
    legs.schedule = TMWATCH_ALL;
    legs.rounds = 1100;
    out = run(&it, legs);
    CHECK(out.result.events == 0 && out.rounds == 1100);
    it.run = begin_all;
    calls = 0;
    CHECK(run_in_vain(&it, one_thread()) == calls);
    calls = 0;
    CHECK(run_in_vain(&it, plan) == calls);
}

/* Runs that break their promise: nothing comes out, and the status says which it was. */
static void refuse_runs(void)
{
    tmwatch_memory it = memory;
    tmwatch_plan plan = one_thread();
    tmwatch_bench_result result;
    plan.aborts = 100;
    it.run = commit_none;
    CHECK(tmwatch_bench(&it, &plan, &result) == TMWATCH_WRONG_ANSWER);
    it.run = call_none;
    CHECK(tmwatch_bench(&it, &plan, &result) == TMWATCH_WRONG_ANSWER);
    it.run = commit_all;
    CHECK(tmwatch_bench(&it, &plan, &result) == TMWATCH_WRONG_ANSWER);
    it.run = call_twice;
    CHECK(tmwatch_bench(&it, &plan, &result) == TMWATCH_WRONG_PHASE);
}

/* One thread by permits: a look comes at first, some time after each 512 attempts, and at the end. */
static void run_by_permits(void)
{
    tmwatch_plan plan = one_thread();
    plan.schedule = TMWATCH_PERMITS;
    tmwatch_bench_result out = run(&memory, plan);
    CHECK(out.result.verdict == TMWATCH_OPAQUE_SO_FAR && out.rounds == 300 && out.skipped == 0);
    CHECK(out.counts.transactions == 302 && out.counts.max_window == 1 && out.counts.concurrent == 0);
    memcpy(plan.start, words, plan.registers * sizeof *words);
    plan.start[2]++;
    out = run(&memory, plan);
    CHECK(out.result.verdict == TMWATCH_VIOLATED && out.result.at == 6);
}

/* Refuses to commit what writes, so that looks commit until one is to write. */
static bool commit_reads(void *memory, void *tx)
{
    if (memcmp(tx, words, sizeof words) == 0)
        return true;
    cancel(memory, tx);
    return false;
}

/* A memory in which no write commits, by each schedule. */
static void refuse_writes(void)
{
    tmwatch_memory it = memory;
    tmwatch_plan plan = one_thread();
    tmwatch_bench_result out;
    it.commit = commit_reads;
    plan.rounds = 1000;
    for (plan.schedule = TMWATCH_ROUNDS; plan.schedule <= TMWATCH_ALL; plan.schedule++) {
        CHECK(tmwatch_bench(&it, &plan, &out) == TMWATCH_NO_PROGRESS);
        CHECK(out.result.verdict == TMWATCH_OPAQUE_SO_FAR && out.counts.committed > 0 && out.solo_rollbacks >= 200);
    }
}

/* Begins late in thread 0. */
static bool begin_late(void *memory, void *tx)
{
    struct timespec time = {0, 20000000};
    if (tmwatch_thread() == 0)
        nanosleep(&time, NULL);
    return begin(memory, tx);
}

/* A memory for several threads in which none writes. */
static bool store_nothing(void *memory, void *tx, unsigned reg, uint64_t value)
{
    (void)memory, (void)tx, (void)reg, (void)value;
    return false;
}

/* By permits, as many rounds are told as the thread has begun that has begun the fewest. Within one of its attempts the other one commits
   what eight permits allow, but for its own and one that may have begun before. */
static void begin_rarely(void)
{
    tmwatch_memory it = memory;
    tmwatch_plan plan = one_thread();
    it.begin = begin_late;
    it.write = store_nothing;
    plan.threads = 2;
    plan.writes = plan.adds = plan.aborts = 0;
    plan.seconds = 1;
    plan.rounds = UINT64_MAX;
    plan.schedule = TMWATCH_PERMITS;
    tmwatch_bench_result out = run(&it, plan);
    CHECK(out.result.verdict == TMWATCH_OPAQUE_SO_FAR && out.rounds > 0 && 3 * out.rounds < out.counts.committed);
    CHECK(out.max_interleaved_commits >= 5 && out.max_interleaved_commits <= 7);
}

/* A time ends the rounds, and a pause outside of a bench is none. */
static void run_for_a_second(void)
{
    tmwatch_plan plan = one_thread();
    plan.rounds = UINT64_MAX;
    plan.seconds = 1;
    tmwatch_bench_result out = run(&memory, plan);
    CHECK(out.result.verdict == TMWATCH_OPAQUE_SO_FAR && out.rounds > 0);
    tmwatch_pause();
}

/* A look that is not over when the time is up says nothing of the memory. */
static void end_a_look(void)
{
    tmwatch_memory it = memory;
    tmwatch_plan plan = one_thread();
    it.begin = never;
    plan.seconds = 1;
    plan.timeout = 30;
    CHECK(run(&it, plan).solo_rollbacks == 0);
}

/* Results of each verdict, of a run that shows nothing, of one in which none has committed, and of steps. */
static const tmwatch_bench_result results[] = {
    {.result = {12, 0, TMWATCH_OPAQUE_SO_FAR, 0}, .counts = {1, 2, 3, 4, 5, 6, 7, 8, 0}, .rounds = 9, .stores = 1},
    {.result = {12, 11, TMWATCH_VIOLATED, 0}, .counts = {1, 2, 3, 4, 5, 6, 7, 8, 0}, .rounds = 9, .skipped = 10, .reproducer = TMWATCH_PLAN},
    {.result = {12, 11, TMWATCH_UNDECIDED, TMWATCH_TRANSACTIONS}, .counts = {1, 2, 3, 4, 5, 6, 7, 8, 0}, .rounds = 9, .reproducer = TMWATCH_PLAN},
    {.result = {12, 11, TMWATCH_UNDECIDED, TMWATCH_STATES}, .counts = {1, 2, 3, 4, 5, 6, 7, 8, 0}, .rounds = 9, .reproducer = TMWATCH_PLAN},
    {.result = {12, 11, TMWATCH_MALFORMED, 0}, .counts = {1, 0, 3, 4, 0, 6, 7, 8, 1}, .rounds = 9, .reproducer = TMWATCH_PLAN},
    {.result = {12, 0, TMWATCH_OPAQUE_SO_FAR, 0}, .counts = {1, 2, 3, 4, 0, 6, 0, 8, 1}, .rounds = 9, .stores = 1, .reproducer = {.threads = 1}},
    {.result = {0, 0, TMWATCH_OPAQUE_SO_FAR, 0}, .rounds = 9},
    {.result = {12, 1, TMWATCH_VIOLATED, 0},
     .counts = {.transactions = 1},
     .rounds = 3,
     .max_interleaved_commits = 7,
     .steps = 20,
     .context_switches = 4,
     .stalls = 2,
     .reproducer = {.schedule = TMWATCH_STEPS, .seed = 5, .rounds = 3, .round = 3, .threads = 2, .registers = TMWATCH_RANDOM, .accesses = 1,
               .writes = TMWATCH_RANDOM, .adds = 0, .aborts = TMWATCH_RANDOM, .pause = TMWATCH_RANDOM, .mixed_rounds = TMWATCH_RANDOM, .orders = TMWATCH_X86,
               .timeout = 10, .attempts = 2, .blind_writes = 0}},
    {.result = {12, 7, TMWATCH_VIOLATED, 0}, .rounds = 3, .steps = 20, .reproducer = TMWATCH_PLAN, .is_deterministic = true, .event = 5,
     .phase = {.schedule = TMWATCH_STEPS, .seed = 8, .rounds = 3, .threads = 2, .registers = 3, .accesses = 1, .plain = 1}},
    {.result = {12, 7, TMWATCH_VIOLATED, 0}, .reproducer = {.schedule = TMWATCH_PERMITS, .start = {0, 7}, .seconds = 4}, .is_deterministic = true},
    {.result = {12, 0, TMWATCH_OPAQUE_SO_FAR, 0}, .counts = {98, 1, 3, 4, 5, 99, 98, 8, 0}, .stores = 1, .steps = 9, .stalls = 9},
    {.result = {12, 0, TMWATCH_OPAQUE_SO_FAR, 0}, .counts = {97, 5, 3, 4, 5, 102, 97, 8, 0}, .stores = 1, .steps = 9, .stalls = 10,
     .untracked = TMWATCH_UNTRACKED_WAITS | TMWATCH_UNTRACKED_BLOCKS},
    {.result = {12, 11, TMWATCH_UNDECIDED, TMWATCH_UNTRACKED}, .steps = 9, .stalls = 1, .waits = 3, .crashes = 2, .reproducer = TMWATCH_PLAN,
     .untracked = TMWATCH_UNTRACKED_STORES | TMWATCH_UNTRACKED_WAITS, .race = "thread 1 reads at here, thread 0 writes"},
    {.result = {12, 0, TMWATCH_OPAQUE_SO_FAR, 0}, .counts = {1, 2, 3, 4, 5, 6, 7, 8, 0}, .stores = 1, .solo_rollbacks = 3},
};

static void print_results(void)
{
    setvbuf(stdout, NULL, _IONBF, 0);
    for (size_t i = 0; i < sizeof results / sizeof results[0]; i++)
        tmwatch_bench_print(stdout, &results[i]);
}

int main(int count, char **given)
{
    if (count > 1 && strcmp(given[1], "print") == 0) {
        print_results();
        return 0;
    }
    refuse_plans();
    run_one_thread();
    find_another_start();
    run_idle();
    refuse_runs();
    run_by_permits();
    refuse_writes();
    begin_rarely();
    run_for_a_second();
    end_a_look();
    return 0;
}
