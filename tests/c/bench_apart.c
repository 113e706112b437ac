/*
Benches that must not meet: two that run at once, by the same plan by steps, have the trace that one alone has. And what a program has set
for its signals stays so, after a bench as in it. An interrupt breaks no call of the memory to the system.
*/
#define _GNU_SOURCE
#include "tmwatch_bench.h"
#include "check.h"
#include <pthread.h>
#include <signal.h>
#include <stdatomic.h>
#include <time.h>
#include <unistd.h>

enum { REGISTERS = 3, BENCHES = 2 };

/* A memory of one lock, of which each bench has its own. */
struct locked {
    atomic_bool is_locked;
    unsigned commits;
    uint64_t words[REGISTERS];
};

/* A bench, and its trace. */
struct ran {
    struct locked memory;
    char *trace;
    size_t size;
};

static bool begin(void *memory, void *tx)
{
    struct locked *it = memory;
    while (atomic_exchange(&it->is_locked, true))
        tmwatch_pause();
    memcpy(tx, it->words, sizeof it->words);
    return true;
}

static bool load(void *memory, void *tx, unsigned reg, uint64_t *value)
{
    (void)tx;
    *value = ((struct locked *)memory)->words[reg];
    tmwatch_pause();
    return true;
}

static bool store(void *memory, void *tx, unsigned reg, uint64_t value)
{
    (void)tx;
    ((struct locked *)memory)->words[reg] = value;
    return true;
}

static bool commit(void *memory, void *tx)
{
    (void)tx;
    ((struct locked *)memory)->commits++;
    ((struct locked *)memory)->is_locked = false;
    return true;
}

static void cancel(void *memory, void *tx)
{
    memcpy(((struct locked *)memory)->words, tx, sizeof(uint64_t[REGISTERS]));
    commit(memory, tx);
}

static void *run(void *argument)
{
    struct ran *it = argument;
    const tmwatch_memory memory = {&it->memory, sizeof it->memory.words, begin, load, store, NULL, commit, cancel, NULL};
    tmwatch_plan plan = TMWATCH_PLAN;
    tmwatch_bench_result result;
    plan.rounds = 2500;
    plan.schedule = TMWATCH_STEPS;
    plan.trace = open_memstream(&it->trace, &it->size);
    CHECK(tmwatch_bench(&memory, &plan, &result) == TMWATCH_OK && result.result.verdict == TMWATCH_OPAQUE_SO_FAR);
    CHECK(result.stalls == 0 && fclose(plan.trace) == 0);
    return NULL;
}

static void run_apart(void)
{
    static struct ran alone, together[BENCHES];
    pthread_t threads[BENCHES];
    run(&alone);
    for (int i = 0; i < BENCHES; i++)
        CHECK(pthread_create(&threads[i], NULL, run, &together[i]) == 0);
    for (int i = 0; i < BENCHES; i++)
        CHECK(pthread_join(threads[i], NULL) == 0);
    for (int i = 0; i < BENCHES; i++) {
        CHECK(together[i].size == alone.size && memcmp(together[i].trace, alone.trace, alone.size) == 0);
        free(together[i].trace);
    }
    free(alone.trace);
}

static volatile sig_atomic_t interrupts;

static void count_interrupt(int number)
{
    (void)number;
    interrupts++;
}

/* Interrupts itself in its first read. */
static bool load_interrupted(void *memory, void *tx, unsigned reg, uint64_t *value)
{
    static atomic_bool has_come;
    if (!atomic_exchange(&has_come, true))
        raise(SIGTERM);
    return load(memory, tx, reg, value);
}

/* A program that ignores SIGTERM goes on to its last round, and what it has set for SIGINT is there again at the end. */
static void keep_signals(void)
{
    static struct locked words;
    static char *given[] = {"bench_apart", "--rounds", "50", "--schedule", "steps", "--quiet", NULL};
    const tmwatch_memory memory = {&words, sizeof words.words, begin, load_interrupted, store, NULL, commit, cancel, NULL};
    signal(SIGTERM, SIG_IGN);
    signal(SIGINT, count_interrupt);
    CHECK(tmwatch_bench_main(&memory, 6, given) == 0);
    CHECK(words.commits > 100);
    CHECK(interrupts == 0 && raise(SIGINT) == 0 && interrupts == 1);
    CHECK(signal(SIGTERM, SIG_DFL) == SIG_IGN);
}

/* A pipe that the memory reads from, the thread that does so, and whether it is about to. */
static int pipes[2];
static pthread_t reader;
static atomic_bool waits;

static void *interrupt_reader(void *argument)
{
    const struct timespec time = {0, 50000000};
    while (!waits)
        nanosleep(&time, NULL);
    nanosleep(&time, NULL);
    CHECK(pthread_kill(reader, SIGINT) == 0);
    nanosleep(&time, NULL);
    CHECK(write(pipes[1], "", 1) == 1);
    return argument;
}

/* Waits for the pipe in its first read. */
static bool load_slowly(void *memory, void *tx, unsigned reg, uint64_t *value)
{
    char byte;
    if (!waits) {
        reader = pthread_self();
        waits = true;
        CHECK(read(pipes[0], &byte, 1) == 1);
    }
    return load(memory, tx, reg, value);
}

/* A call to the system goes on after an interrupt, which ends all benches of the process. */
static void go_on_after_interrupt(void)
{
    static struct locked words;
    static char *given[] = {"bench_apart", "--threads", "1", "--schedule", "steps", "--seconds", "60", "--quiet", NULL};
    const tmwatch_memory memory = {&words, sizeof words.words, begin, load_slowly, store, NULL, commit, cancel, NULL};
    pthread_t thread;
    CHECK(pipe(pipes) == 0 && signal(SIGINT, SIG_DFL) == count_interrupt);
    CHECK(pthread_create(&thread, NULL, interrupt_reader, NULL) == 0);
    CHECK(tmwatch_bench_main(&memory, 8, given) == 0);
    CHECK(pthread_join(thread, NULL) == 0);
}

int main(void)
{
    run_apart();
    keep_signals();
    go_on_after_interrupt();
    return 0;
}
