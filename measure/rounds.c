/*
Makes the rounds of `tmwatch bench --memory norec` with plain threads that meet at a barrier, for measure/bench.sh. Nothing is judged.

    rounds ROUNDS [trace] < WORKLOAD

WORKLOAD is a workload's JSON (docs/FORMATS.md), of which only the scripts are read. Each script has a thread, which lives for all rounds.
The threads meet at a barrier before each round, and then each one runs its script on one memory: NOrec (Dalessandro, Spear and Scott, PPoPP
2010), with the same steps as crates/tmw_memories/src/norec.rt. A thread stores an event in a list before it calls the memory, and one after
the answer, at the place that an atomic counter gives. If the list may have no room for the next round, one thread counts its events while
the others wait.

Prints a line: rounds, events, seconds, forced aborts (each an `A` that answers another call than `X`), and changes of thread (each an event
whose thread differs from that of the event before). The seconds are those from the first thread's start to the last one's end, minus those
of counting. With `trace`, the trace of all events precedes that line. The exit status is 0; 1 if a thread cannot be started; 2 if the
arguments or the workload are wrong.
*/
#define _POSIX_C_SOURCE 200809L
#include <inttypes.h>
#include <pthread.h>
#include <stdatomic.h>
#include <stdbool.h>
#include <stdint.h>
#include <stdio.h>
#include <stdlib.h>
#include <string.h>
#include <time.h>

enum {
    MOST_THREADS = 8,
    MOST_CALLS = 4096,
    REGISTERS = 8,
    MOST_ENTRIES = 16,
    /* How often a call tries again before it aborts its transaction. */
    TURNS = 64,
    /* The line of a processor's cache, which what is written often has to itself. */
    LINE = 64,
    MOST_EVENTS = 1 << 16,
};

/* A call, or its answer, by its letter in a trace. */
struct event {
    uint64_t value;
    unsigned reg;
    char kind;
    uint8_t thread;
};

struct script {
    size_t count;
    struct event calls[MOST_CALLS];
};

struct entry {
    uint64_t value;
    unsigned reg;
};

struct entries {
    unsigned count;
    struct entry items[MOST_ENTRIES];
};

struct transaction {
    bool begun;
    uint64_t snapshot;
    struct entries reads, writes;
};

static struct script scripts[MOST_THREADS];
static unsigned threads;
static unsigned long rounds, rounds_between_counts;
static bool writes_trace;
static pthread_barrier_t barrier;

/* The memory: the lock's number is odd while a transaction stores what it has written. */
static _Alignas(LINE) struct {
    _Atomic uint64_t lock, words[REGISTERS];
} memory;

static _Alignas(LINE) atomic_size_t places;
static _Alignas(LINE) struct event events[MOST_EVENTS];

/* What was counted, and where the count stands: the thread of the last event, and the call that each thread made last. */
static _Alignas(LINE) struct {
    unsigned long events, aborts, changes;
    double seconds;
    uint8_t last;
    char asked[MOST_THREADS];
} counted;

static void fail(int status, const char *why)
{
    fprintf(stderr, "rounds: %s\n", why);
    exit(status);
}

static double now(void)
{
    struct timespec time;
    clock_gettime(CLOCK_MONOTONIC, &time);
    return (double)time.tv_sec + (double)time.tv_nsec / 1e9;
}

/* The memory's calls. Each tells whether the transaction goes on, and a commit whether it was made. */

static bool append(struct entries *entries, unsigned reg, uint64_t value)
{
    if (entries->count == MOST_ENTRIES)
        return false;
    entries->items[entries->count++] = (struct entry){value, reg};
    return true;
}

static bool begin(struct transaction *tx)
{
    for (int turn = 0; turn < TURNS; turn++) {
        tx->snapshot = atomic_load(&memory.lock);
        if (tx->snapshot % 2 == 0) {
            tx->begun = true;
            return true;
        }
    }
    return false;
}

/* Whether each register that was read still has the value that was read there. */
static bool hold(const struct entries *reads)
{
    for (unsigned at = 0; at < reads->count; at++)
        if (atomic_load(&memory.words[reads->items[at].reg]) != reads->items[at].value)
            return false;
    return true;
}

/* Moves the snapshot on to one at which all that was read had still the values that were read. */
static bool validate(struct transaction *tx)
{
    for (int turn = 0; turn < TURNS; turn++) {
        uint64_t seen = atomic_load(&memory.lock);
        if (seen % 2 == 1)
            continue;
        if (!hold(&tx->reads))
            return false;
        if (atomic_load(&memory.lock) == seen) {
            tx->snapshot = seen;
            return true;
        }
    }
    return false;
}

/* The register's value at the snapshot, which is moved on where the lock has moved. */
static bool load(struct transaction *tx, unsigned reg, uint64_t *value)
{
    *value = atomic_load(&memory.words[reg]);
    for (int turn = 0; turn < TURNS; turn++) {
        if (atomic_load(&memory.lock) == tx->snapshot)
            return true;
        if (!validate(tx))
            return false;
        *value = atomic_load(&memory.words[reg]);
    }
    return atomic_load(&memory.lock) == tx->snapshot;
}

static bool read_register(struct transaction *tx, unsigned reg, uint64_t *value)
{
    for (unsigned at = tx->writes.count; at > 0; at--)
        if (tx->writes.items[at - 1].reg == reg) {
            *value = tx->writes.items[at - 1].value;
            return true;
        }
    return load(tx, reg, value) && append(&tx->reads, reg, *value);
}

static bool take_lock(struct transaction *tx)
{
    for (int turn = 0; turn < TURNS; turn++) {
        uint64_t seen = tx->snapshot;
        if (atomic_compare_exchange_strong(&memory.lock, &seen, tx->snapshot + 1))
            return true;
        if (!validate(tx))
            return false;
    }
    return false;
}

static bool commit(struct transaction *tx)
{
    if (tx->writes.count == 0)
        return true;
    if (!take_lock(tx))
        return false;
    for (unsigned at = 0; at < tx->writes.count; at++)
        atomic_store(&memory.words[tx->writes.items[at].reg], tx->writes.items[at].value);
    atomic_store(&memory.lock, tx->snapshot + 2);
    return true;
}

/* Makes the call in the memory, which begins the transaction at its first call, and returns the answer. */
static struct event ask(struct transaction *tx, const struct event *call)
{
    struct event answer = {.kind = 'A'};
    if (!tx->begun && !begin(tx))
        return answer;
    switch (call->kind) {
    case 'R':
        if (read_register(tx, call->reg, &answer.value))
            answer.kind = 'V';
        break;
    case 'W':
        if (append(&tx->writes, call->reg, call->value))
            answer.kind = 'K';
        break;
    case 'N':
        if (read_register(tx, call->reg, &answer.value) && append(&tx->writes, call->reg, answer.value + call->value))
            answer.kind = 'V';
        break;
    case 'T':
        if (commit(tx))
            answer.kind = 'C';
        break;
    default: /* X is answered A. */
        break;
    }
    return answer;
}

static void record(uint8_t thread, struct event event)
{
    event.thread = thread;
    events[atomic_fetch_add(&places, 1)] = event;
}

static bool ends_transaction(char kind)
{
    return kind == 'T' || kind == 'X';
}

/* Carries a script out once. What is left of a transaction that was aborted is dropped. */
static void carry_out(uint8_t thread, const struct script *script)
{
    struct transaction tx = {0};
    for (size_t at = 0; at < script->count; at++) {
        record(thread, script->calls[at]);
        struct event answer = ask(&tx, &script->calls[at]);
        record(thread, answer);
        if (answer.kind != 'A' && answer.kind != 'C')
            continue;
        tx.begun = false;
        tx.reads.count = tx.writes.count = 0;
        while (!ends_transaction(script->calls[at].kind))
            at++;
    }
}

static void write_event(const struct event *event)
{
    printf("%u %c", event->thread, event->kind);
    if (event->kind == 'R' || event->kind == 'W' || event->kind == 'N')
        printf(" %u", event->reg);
    if (event->kind == 'V' || event->kind == 'W' || event->kind == 'N')
        printf(" %" PRIu64, event->value);
    putchar('\n');
}

/* Counts the events of the list, and empties it. All threads have ended their rounds. */
static void count_events(void)
{
    double began = now();
    size_t all = atomic_load(&places);
    for (size_t at = 0; at < all; at++) {
        const struct event *event = &events[at];
        if (counted.events++ > 0 && event->thread != counted.last)
            counted.changes++;
        counted.last = event->thread;
        if (event->kind == 'A')
            counted.aborts += counted.asked[event->thread] != 'X';
        else
            counted.asked[event->thread] = event->kind;
        if (writes_trace)
            write_event(event);
    }
    atomic_store(&places, 0);
    counted.seconds += now() - began;
}

/* A thread. */
static void *work(void *given)
{
    const struct script *script = given;
    uint8_t thread = (uint8_t)(script - scripts);
    for (unsigned long round = 0; round < rounds; round++) {
        if (round % rounds_between_counts == 0 && pthread_barrier_wait(&barrier) == PTHREAD_BARRIER_SERIAL_THREAD)
            count_events();
        pthread_barrier_wait(&barrier);
        carry_out(thread, script);
    }
    return NULL;
}

/* How many parts a call of this letter has, or 0 where it is none. */
static int parts_of(char kind)
{
    switch (kind) {
    case 'T':
    case 'X':
        return 1;
    case 'R':
        return 2;
    case 'W':
    case 'N':
        return 3;
    default:
        return 0;
    }
}

/* Reads the call that stands there, and returns where the quotation mark behind it is. */
static const char *read_call(const char *text, struct script *script)
{
    if (script->count == MOST_CALLS)
        fail(2, "a script has too many calls");
    struct event *call = &script->calls[script->count++];
    const char *end = strchr(text, '"');
    int parts = sscanf(text, "%c %u %" SCNu64, &call->kind, &call->reg, &call->value);
    if (!end || parts < 1 || parts != parts_of(call->kind) || call->reg >= REGISTERS)
        fail(2, "a text is no call");
    return end;
}

/* Reads the scripts of a workload. In the list that they are, a list is a script, and one in that a transaction. */
static void read_scripts(const char *text)
{
    int depth = 0;
    const char *at = strstr(text, "\"scripts\":");
    if (!at)
        fail(2, "there are no scripts");
    for (at = strchr(at, ':'); *at; at++) {
        struct script *script = threads ? &scripts[threads - 1] : NULL;
        if (*at == '[' && ++depth == 2 && threads++ == MOST_THREADS)
            fail(2, "there are too many scripts");
        if (*at == ']' && depth == 3 && (script->count == 0 || !ends_transaction(script->calls[script->count - 1].kind)))
            fail(2, "a transaction doesn't end with T or X");
        if (*at == ']' && --depth == 0)
            return;
        if (*at == '"' && depth != 3)
            fail(2, "a call is in no transaction");
        if (*at == '"')
            at = read_call(at + 1, script);
    }
    fail(2, "the scripts have no end");
}

static void start_all(void)
{
    pthread_t handles[MOST_THREADS];
    pthread_barrier_init(&barrier, NULL, threads);
    for (unsigned at = 0; at < threads; at++)
        if (pthread_create(&handles[at], NULL, work, &scripts[at]) != 0)
            fail(1, "a thread can't be started");
    for (unsigned at = 0; at < threads; at++)
        pthread_join(handles[at], NULL);
}

int main(int count, char **words)
{
    static char text[1 << 20];
    writes_trace = count == 3 && strcmp(words[2], "trace") == 0;
    rounds = count > 1 ? strtoul(words[1], NULL, 10) : 0;
    if (rounds == 0 || count != (writes_trace ? 3 : 2))
        fail(2, "usage: rounds ROUNDS [trace] < WORKLOAD");
    text[fread(text, 1, sizeof text - 1, stdin)] = '\0';
    read_scripts(text);
    size_t most = 0;
    for (unsigned at = 0; at < threads; at++)
        most += 2 * scripts[at].count;
    if (most == 0 || most > MOST_EVENTS)
        fail(2, "a round has no event, or too many");
    rounds_between_counts = MOST_EVENTS / most;
    if (writes_trace)
        puts("opacity-trace 2 8 0 0 0 0 0 0 0 0");
    double began = now();
    start_all();
    double seconds = now() - began - counted.seconds;
    count_events();
    printf("%lu %lu %.6f %lu %lu\n", rounds, counted.events, seconds, counted.aborts, counted.changes);
    return ferror(stdout) || fflush(stdout) ? 1 : 0;
}
