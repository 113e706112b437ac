/* Parts of the bench by themselves. The watchdog of the steps: after how many looks a runner is stalled, and what it leaves of
   the locks. What legs come to, one after another. What a system call that isn't for a futex gets. After a leg by steps all is unlocked,
   and each thread has known which bytes are its own. */
#include "../../bench-c/tmwatch_bench.c"
#include "check.h"
#include <stdarg.h>

enum { NEXT, RUNNER, STUCK, SHORT = 200, MEDIUM = 3000, LONG = 300000 /* microseconds */ };
enum { FILES = 32, FEW_LOOKS = 10, MANY_LOOKS = 10000 };
static const unsigned both = 1u << RUNNER | 1u << NEXT;

static struct bench bench;
static struct session session;
static uint64_t now;
static atomic_bool spins;
static long pause_each = 1;
static unsigned stills; /* how often the orders were to be still */

void tmwatch_orders_still(tmwatch_simulation *orders)
{
    (void)orders;
    stills++;
}

static _Thread_local unsigned drains, paused; /* how often what this thread has stored was to come out, and before how many pauses */

void tmwatch_step_drain(void)
{
    drains++;
}

void tmwatch_step_drain_of(tmwatch_step_how *how, unsigned pauses)
{
    paused += pauses;
    if (pauses == 0)
        how->buffered = 0;
}

/* Tells its number, and then sleeps or computes. */
static void *run(void *number)
{
    *(atomic_int *)number = (int)syscall(SYS_gettid);
    for (;;)
        if (!spins)
            pause();
    return NULL;
}

static int value_of(sem_t *semaphore)
{
    int value = -1;
    sem_getvalue(semaphore, &value);
    return value;
}

/* Nobody has made a step for long, after so many stalls: these threads have not ended the round. */
static void begin(unsigned ready, uint64_t stalls)
{
    struct steps *s = &bench.steps;
    int tid = s->tid[RUNNER];
    memset(s, 0, sizeof *s);
    set_steps(&bench);
    s->tid[RUNNER] = tid;
    s->ready = ready;
    s->stuck = 1u << STUCK;
    s->runner = s->awake = RUNNER;
    s->stalls = stalls;
    s->has_buffers = true;
    bench.plan.threads = STUCK + 1;
    for (unsigned i = 0; i <= STUCK; i++)
        bench.parts[i].how.buffered = i != RUNNER;
    bench.watchdog = (struct watchdog){.runner = NOBODY, .looked = now};
}

/* Looks so often, that many microseconds apart: how often until it let another one go, or 0. All is unlocked then. */
static unsigned looks_until_stall(unsigned most, uint64_t apart)
{
    struct steps *s = &bench.steps;
    uint64_t before = s->stalls;
    unsigned looks = 0;
    while (looks < most && s->stalls == before) {
        nap(pause_each);
        watch_steps(&bench, now += apart);
        looks++;
        CHECK(value_of(&s->free) == 1 && (spins || !bench.watchdog.computes));
    }
    bool is_stalled = s->stalls > before;
    CHECK(s->stalls == before + is_stalled && s->stuck == ((is_stalled ? 1u << RUNNER : 0) | 1u << STUCK));
    CHECK(s->runner == (is_stalled ? NEXT : RUNNER) && value_of(&s->go[NEXT]) == is_stalled && value_of(&s->go[RUNNER]) == 0);
    CHECK(s->has_buffers != is_stalled && bench.parts[NEXT].how.buffered == !is_stalled && bench.parts[STUCK].how.buffered == !is_stalled);
    return is_stalled ? looks : 0;
}

/* The runner's delayed stores come out once it is blocked, also if nobody else is to go. */
static void check_delayed(void)
{
    struct steps *s = &bench.steps;
    begin(1u << RUNNER, 0);
    bench.parts[RUNNER].how.buffered = 1;
    for (unsigned looks = 0; looks <= MOST_SLEEPS; looks++) {
        CHECK(s->stalls == 0 && s->has_buffers && bench.parts[RUNNER].how.buffered == 1);
        watch_steps(&bench, now += LOOK_MICROSECONDS);
    }
    CHECK(s->stalls == 1 && !s->has_buffers && bench.parts[RUNNER].how.buffered == 0);
    CHECK(s->runner == RUNNER && s->stuck == 1u << STUCK && value_of(&s->free) == 1);
    watch_steps(&bench, now += LOOK_MICROSECONDS);
    CHECK(s->stalls == 1);
}

static void check_sleep(void)
{
    begin(both, 0);
    CHECK(looks_until_stall(200, LOOK_MICROSECONDS) == 1 + MOST_SLEEPS);
    begin(both, FEW_STALLS - 1);
    CHECK(looks_until_stall(200, LOOK_MICROSECONDS) == 1 + MOST_SLEEPS);
    for (pause_each = MEDIUM; pause_each > 0; pause_each -= MEDIUM - 1) {
        begin(both, FEW_STALLS);
        CHECK(looks_until_stall(200, LOOK_MICROSECONDS) == 1 + LATER_SLEEPS);
    }
    pause_each = 1;
    begin(both, 0);
    CHECK(looks_until_stall(1000, LOOK_MICROSECONDS / 2) == 2 * (1 + MOST_SLEEPS));
    /* Nobody else is to go, the runner asks elsewhere, or another one is awake. */
    begin(1u << RUNNER, 0);
    CHECK(looks_until_stall(200, LOOK_MICROSECONDS) == 0);
    begin(both, 0);
    bench.steps.asks = true;
    CHECK(looks_until_stall(200, LOOK_MICROSECONDS) == 0);
    begin(both, 0);
    bench.steps.awake = NEXT;
    CHECK(looks_until_stall(200, LOOK_MICROSECONDS) == 0);
    begin(both, 0);
    bench.is_over = true;
    CHECK(looks_until_stall(200, LOOK_MICROSECONDS) == 0);
    bench.is_over = false;
    /* A step of the runner begins the count anew. */
    begin(both, 0);
    CHECK(looks_until_stall(MOST_SLEEPS, LOOK_MICROSECONDS) == 0);
    bench.steps.steps++;
    CHECK(looks_until_stall(200, LOOK_MICROSECONDS) == 1 + MOST_SLEEPS);
}

/* One that computes has longer. Not more is counted for a look than MOST_EACH. */
static void check_use(void)
{
    begin(both, 0);
    CHECK(looks_until_stall(1, LOOK_MICROSECONDS) == 0 && !bench.watchdog.computes);
    CHECK(looks_until_stall(1, LOOK_MICROSECONDS) == 0 && bench.watchdog.computes);
    nap(LONG);
    CHECK(looks_until_stall(FEW_LOOKS, LOOK_MICROSECONDS) == 0);
    CHECK(looks_until_stall(MANY_LOOKS, LOOK_MICROSECONDS) > MOST_USED / MOST_EACH - FEW_LOOKS - 3);
    begin(both, FEW_STALLS);
    CHECK(looks_until_stall(MANY_LOOKS, LOOK_MICROSECONDS) > LATER_USED / MOST_EACH);
    bench.steps.asks = true;
    watch_steps(&bench, now += LOOK_MICROSECONDS);
    CHECK(!bench.watchdog.computes);
}

/* What another thread changes while the watchdog waits for the lock. */
enum change { NONE, ITS_STEPS, THE_RUNNER, WHO_IS_AWAKE, CHANGES };
static enum change change;
static int own_tid;

static void *change_and_unlock(void *none)
{
    struct steps *s = &bench.steps;
    while (!is_asleep(own_tid))
        ;
    s->steps += change == ITS_STEPS;
    s->runner = change == THE_RUNNER ? NEXT : RUNNER;
    s->awake = change == WHO_IS_AWAKE ? NEXT : RUNNER;
    post(&s->free);
    return none;
}

/* One that has gone on meanwhile is not stuck. */
static void check_changes(void)
{
    own_tid = (int)syscall(SYS_gettid);
    bench.orders = (tmwatch_simulation *)&bench;
    for (change = NONE; change < CHANGES; change++) {
        pthread_t other;
        begin(both, 0);
        CHECK(looks_until_stall(MOST_SLEEPS, LOOK_MICROSECONDS) == 0);
        await(&bench.steps.free);
        CHECK(pthread_create(&other, NULL, change_and_unlock, NULL) == 0);
        watch_steps(&bench, now += LOOK_MICROSECONDS);
        pthread_join(other, NULL);
        CHECK(bench.steps.stalls == (change == NONE) && stills == 1 && value_of(&bench.steps.free) == 1);
    }
    bench.orders = NULL;
}

/* Nothing has overlapped if that is so of each leg. The last race stays, and what orders have shown last. */
static void check_legs(void)
{
    tmwatch_bench_result sum = {.race = "1", .stale_loads = "1"}, none = {0}, last = {.race = "2", .stale_loads = "2"};
    add_leg(&sum, &none);
    CHECK(sum.race[0] == '1' && sum.stale_loads[0] == '1');
    add_leg(&sum, &last);
    CHECK(sum.race[0] == '2' && sum.stale_loads[0] == '2');
    for (unsigned legs = 0; legs < 8; legs++) {
        tmwatch_bench_result all = {0};
        for (unsigned i = 0; i < 3; i++) {
            tmwatch_bench_result leg = {.result = {.events = 10}, .counts = {.none_overlapped = legs >> i & 1}};
            add_leg(&all, &leg);
        }
        CHECK(all.counts.none_overlapped == (legs == 7) && all.result.events == 30);
    }
}

static uint64_t words[MOST_REGISTERS], calls, freed, delayed;

static bool begins(void *memory, void *tx)
{
    (void)memory, (void)tx;
    return true;
}

/* After a long sleep another thread has run, if one is able to. */
static void sleep_long(void)
{
    const struct steps *s = &this_thread->bench->steps;
    bool has_others = !this_thread->by->looks && s->ready & ~s->stuck & ~s->waiting & ~(1u << this_thread->thread);
    uint64_t before = s->context_switches;
    tmwatch_step_at(TMWATCH_CALLER, 2 * MOST_SPIN);
    CHECK(s->context_switches > before || !has_others);
}

/* The thread pauses with a lock of the memory, and then waits outside now and then. */
static bool reads(void *memory, void *tx, unsigned reg, uint64_t *value)
{
    static bool is_locked;
    (void)memory, (void)tx;
    *value = words[reg];
    while (is_locked)
        freed += tmwatch_step_wait(&is_locked, false) == TMWATCH_STEP_FREED;
    is_locked = true;
    paused = 0;
    tmwatch_pause();
    CHECK(paused == 1);
    is_locked = false;
    tmwatch_step_free(&is_locked, true);
    sleep_long();
    /* (in a look no stall would end the wait of a thread that waits for who needs its stores) */
    bool is_delayed = *this_thread->how.has_buffers;
    CHECK(!is_delayed || !this_thread->by->looks);
    delayed += is_delayed;
    unsigned before = drains;
    if (++calls % 3 == 0 && tmwatch_external_call()) {
        CHECK(drains == before + 1);
        tmwatch_external_blocked();
        CHECK(drains == before + 2);
    }
    return true;
}

static bool writes(void *memory, void *tx, unsigned reg, uint64_t value)
{
    (void)memory, (void)tx;
    words[reg] = value;
    return true;
}

static void ends(void *memory, void *tx)
{
    (void)memory, (void)tx;
}

static void check_locks(void)
{
    static const tmwatch_memory memory = {NULL, 1, begins, reads, writes, NULL, begins, ends, NULL};
    static const tmwatch_plan given = TMWATCH_PLAN;
    static struct bench leg;
    struct session of = {.memory = &memory, .plan = &given};
    tmwatch_bench_result out;
    tmwatch_plan plan = filled_plan(&given, usual);
    plan.schedule = TMWATCH_STEPS;
    plan.rounds = 200;
    plan.adds = 0;
    plan.keep_going = 1;
    plan.orders = TMWATCH_X86;
    CHECK(run_leg(&leg, &of, &plan, &out) == TMWATCH_OK && calls > plan.rounds && out.waits > 0 && freed > 0 && delayed > 0);
    CHECK(value_of(&leg.steps.free) == 1);
    /* (by which each thread draws when its stores come out) */
    CHECK(leg.parts[0].how.draws != leg.parts[1].how.draws);
    CHECK(leg.parts[0].how.own_end[1] == leg.parts[0].how.own[1] + memory.tx_size);
    end_threads(&of, false);
}

static void restart(void *memory)
{
    (void)memory;
}

/* After a crash nothing is recorded, but what was stored before comes out. */
static void check_lost(void)
{
    static struct bench crashed;
    tmwatch_attempt *a = &crashed.parts[0];
    a->bench = &crashed;
    a->by = &by_steps;
    crashed.plan.threads = 1;
    crashed.restart = restart;
    drains = 0;
    record(a, NULL);
    CHECK(drains == 1 && a->keeps == 0);
}

enum { CALL_WORDS = 6, NO_CALL = 100000, RETURNED = 77 };
long __wrap_syscall(long number, long first, long what, long third, long fourth, long fifth, long sixth);

long __real_syscall(long number, ...)
{
    va_list words;
    va_start(words, number);
    for (long i = 1; i <= CALL_WORDS; i++)
        CHECK(va_arg(words, long) == number - NO_CALL + i);
    va_end(words);
    return RETURNED;
}

int main(void)
{
    struct worker *worker = calloc(1, sizeof *worker);
    unsigned waits = 0;
    setrlimit(RLIMIT_NOFILE, &(struct rlimit){FILES, FILES}); /* (each look gives its file back) */
    bench.session = &session;
    session.workers[RUNNER] = worker;
    CHECK(worker && pthread_create(&worker->thread, NULL, run, &bench.steps.tid[RUNNER]) == 0);
    for (; (!bench.steps.tid[RUNNER] || !is_asleep(bench.steps.tid[RUNNER])) && waits < 10000; waits++)
        nap(1000);
    CHECK(waits < 10000 && !is_asleep((int)syscall(SYS_gettid)) && !is_asleep(0));
    check_legs();
    check_locks();
    CHECK(__wrap_syscall(NO_CALL, 1, 2, 3, 4, 5, 6) == RETURNED);
    check_sleep();
    check_delayed();
    check_lost();
    check_changes();
    spins = true;
    pause_each = SHORT;
    signal(SIGUSR1, end_by_signal);
    pthread_kill(worker->thread, SIGUSR1);
    check_use();
    return 0;
}
