/*
Writers that stop at any point: within a transaction, at a full ring, and when its places are used up. A watch judges their events,
meanwhile and to the end, and each call that failed for lack of memory is repeated. All recorded events must be judged, each writer's events
in their order, and a second watch, which is then given the log, must report the same.

    stops RUNS

The last line has the results of the runs.
*/
#define _POSIX_C_SOURCE 200809L
#include "../c/check.h"
#include <pthread.h>
#include <sched.h>

enum { WRITERS = 4, MOST = 40, EVENTS = WRITERS * MOST, CELLS = 2 * EVENTS, CALLS = 400, SOON = 100000 };

struct event {
    unsigned thread;
    char letter;
    uint64_t reg, value;
};

static tmwatch watch;
static tmwatch_recorder recorders[WRITERS];
static struct event events[EVENTS];

/* A run, drawn by chance. */
static struct {
    tmwatch_settings settings;
    unsigned writers;
    unsigned most[WRITERS]; /* after so many events a writer stops, wherever it is in a transaction */
    unsigned tries;         /* so often more an event is tried for which the ring lacks room */
    unsigned calls;         /* so often the watch is pumped before the rest is judged */
    unsigned max;           /* so many events a pump judges at most */
    bool drops;             /* the writers discard their recorders where they stop, and the watch is not closed */
    bool is_wrong;          /* the first writer reads what nobody has written */
} run;

/* What came of a run's writers: how many events each has recorded, and the status at which it stopped, or 0. */
static unsigned recorded[WRITERS];
static uint32_t stopped[WRITERS];

/* What came of all runs. */
static unsigned long dropped, full, spent, amid, judged_all, opaque, violated, undecided;

/* Numbers that seem drawn by chance, and are the same each time: below so many. */
static unsigned draw(unsigned below)
{
    static uint64_t number = 88172645463325252;
    number ^= number << 13;
    number ^= number >> 7;
    number ^= number << 17;
    return (unsigned)((number >> 8) % below);
}

static void draw_run(void)
{
    const tmwatch_settings settings = TMWATCH_SETTINGS(2);
    run.settings = settings;
    run.writers = 1 + draw(WRITERS);
    run.settings.cells = run.writers + draw(12);
    if (draw(3) == 0)
        run.settings.limit = run.writers + draw(60);
    run.settings.window = draw(4) == 0 ? 2 : 8;
    run.settings.states = draw(4) == 0 ? 1 : 64;
    for (unsigned i = 0; i < WRITERS; i++)
        run.most[i] = draw(MOST);
    run.tries = draw(3) == 0 ? 0 : 1000;
    run.calls = draw(4) == 0 ? 0 : draw(2000);
    run.max = 1 + draw(8);
    run.drops = draw(2) == 0;
    run.is_wrong = draw(4) == 0;
}

/* The event of a writer that has recorded so many before it. It reads back what it has written, reads a register that nobody writes and
   asks for an abort, and is aborted. */
static struct event nth(unsigned thread, unsigned count)
{
    const char letter = "WKRVTCRVXATA"[count % 12];
    const bool is_own = count % 12 < 6;
    const uint64_t value = is_own ? thread : run.is_wrong && thread == 0;
    return (struct event){thread, letter, is_own ? 0 : 1, letter == 'W' || letter == 'V' ? value : 0};
}

static bool is_amid(unsigned count)
{
    return count % 12 != 0 && count % 12 != 6 && count % 12 != 10;
}

static uint32_t record_tried(tmwatch_recorder *recorder, struct event event, uint64_t *place)
{
    uint32_t status = TMWATCH_FULL;
    for (unsigned i = 0; i <= run.tries && status == TMWATCH_FULL; i++) {
        if (i > 0)
            sched_yield();
        status = tmwatch_record(recorder, (uint32_t)event.letter, event.reg, event.value, place);
    }
    return status;
}

/* Records a writer's events until it stops. */
static void *record_some(void *recorder)
{
    unsigned thread = (unsigned)((tmwatch_recorder *)recorder - recorders);
    while (recorded[thread] < run.most[thread] && !stopped[thread]) {
        const struct event event = nth(thread, recorded[thread]);
        uint64_t place = EVENTS;
        uint32_t status = record_tried(recorder, event, &place);
        if (status == TMWATCH_OK) {
            CHECK(place < EVENTS);
            events[place] = event;
            recorded[thread]++;
        } else {
            CHECK(status == TMWATCH_FULL || status == TMWATCH_SPENT);
            stopped[thread] = status;
        }
    }
    if (run.drops)
        tmwatch_discard_recorder(recorder);
    return NULL;
}

/* Pumps so often, and looks after each whether what stands is what it answered. */
static void pump_some(unsigned calls)
{
    tmwatch_result before, after;
    for (unsigned i = 0; i < calls; i++) {
        uint64_t judged = 0;
        CHECK(tmwatch_report(&watch, &before) == TMWATCH_OK);
        CHECK(tmwatch_pump(&watch, run.max, &judged) == TMWATCH_OK && judged <= run.max);
        CHECK(tmwatch_report(&watch, &after) == TMWATCH_OK && after.events == before.events + judged);
        sched_yield();
    }
}

static tmwatch_result close_soon(size_t count)
{
    tmwatch_result result;
    uint32_t status = TMWATCH_NO_MEMORY;
    for (int tries = 0; tries < SOON && status == TMWATCH_NO_MEMORY; tries++)
        status = tmwatch_close(&watch, recorders, count, &result);
    CHECK(status == TMWATCH_OK);
    return result;
}

static void open_soon(size_t count, const tmwatch_settings *settings)
{
    uint32_t status = TMWATCH_NO_MEMORY;
    for (int tries = 0; tries < SOON && status == TMWATCH_NO_MEMORY; tries++)
        status = tmwatch_open(&watch, recorders, count, settings);
    CHECK(status == TMWATCH_OK);
}

/* Lets the writers record while events are judged, and has the rest judged: what is told at the end. A writer whose thread can not be
   started records nothing. */
static tmwatch_result run_threads(void)
{
    pthread_t threads[WRITERS];
    unsigned started = 0;
    tmwatch_result result;
    while (started < run.writers && pthread_create(&threads[started], NULL, record_some, &recorders[started]) == 0)
        started++;
    pump_some(run.calls);
    for (unsigned i = 0; i < started; i++)
        CHECK(pthread_join(threads[i], NULL) == 0);
    if (!run.drops)
        return close_soon(run.writers);
    for (unsigned i = started; i < run.writers; i++)
        tmwatch_discard_recorder(&recorders[i]);
    pump_some(CALLS);
    CHECK(tmwatch_report(&watch, &result) == TMWATCH_OK);
    tmwatch_discard(&watch);
    return result;
}

/* Whether so many events are all that was recorded, each writer's in its order. */
static bool are_all(uint64_t count)
{
    unsigned counts[WRITERS] = {0};
    for (uint64_t place = 0; place < count; place++) {
        const struct event *event = &events[place], next = nth(event->thread, counts[event->thread]++);
        if (event->letter != next.letter || event->reg != next.reg || event->value != next.value)
            return false;
    }
    return count <= run.settings.limit && memcmp(counts, recorded, sizeof counts) == 0;
}

/* Whether a watch that is given the log tells the same. */
static bool is_told_again(tmwatch_result result)
{
    tmwatch_settings settings = run.settings;
    settings.cells = CELLS;
    settings.limit = CELLS;
    open_soon(WRITERS, &settings);
    for (uint64_t place = 0; place < result.events; place++) {
        const struct event *event = &events[place];
        uint64_t again;
        CHECK(tmwatch_record(&recorders[event->thread], (uint32_t)event->letter, event->reg, event->value, &again) == TMWATCH_OK);
    }
    tmwatch_result same = close_soon(WRITERS);
    return tells(same, result.events, result.verdict, result.at, result.why);
}

static void add(tmwatch_result result)
{
    judged_all += result.events;
    dropped += run.drops;
    for (unsigned i = 0; i < run.writers; i++) {
        full += stopped[i] == TMWATCH_FULL;
        spent += stopped[i] == TMWATCH_SPENT;
        amid += is_amid(recorded[i]);
    }
    opaque += result.verdict == TMWATCH_OPAQUE_SO_FAR;
    violated += result.verdict == TMWATCH_VIOLATED;
    undecided += result.verdict == TMWATCH_UNDECIDED;
    CHECK(result.verdict != TMWATCH_MALFORMED);
}

/* Makes a run, of which has to come what was promised. */
static void make_run(void)
{
    memset(recorded, 0, sizeof recorded);
    memset(stopped, 0, sizeof stopped);
    open_soon(run.writers, &run.settings);
    tmwatch_result result = run_threads();
    CHECK(are_all(result.events) && is_told_again(result));
    add(result);
}

int main(int count, char **words)
{
    CHECK(count == 2);
    for (unsigned long runs = strtoul(words[1], NULL, 10); runs > 0; runs--) {
        draw_run();
        make_run();
    }
    printf("%lu dropped; writers: %lu at a full ring, %lu at spent places, %lu amid a transaction; %lu events; "
           "%lu opaque so far, %lu violated, %lu undecided\n",
           dropped, full, spent, amid, judged_all, opaque, violated, undecided);
    CHECK(dropped && full && spent && amid && opaque && violated && undecided);
    return 0;
}
