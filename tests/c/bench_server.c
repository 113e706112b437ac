/*
A right memory on the bench whose calls a single thread of its own makes, the server: a client posts a request by a release store, and then
sleeps in a read from a pipe, which the server writes to once it has made the call. The server rolls a transaction back that uses a word which
another one has used.

By -DBELL the server sleeps too, and a client wakes it by a write to its pipe.
*/
#define _GNU_SOURCE
#include "tmwatch_bench.h"
#include <pthread.h>
#include <sched.h>
#include <stdatomic.h>
#include <stdlib.h>
#include <unistd.h>

enum { REGISTERS = 8, THREADS = 8 };
enum kind { BEGIN, READ, WRITE, COMMIT, CANCEL };

/* A client's request, by its number, and the answer. The client alone stores `posted`, the server alone the answer. */
struct slot {
    atomic_uint posted;
    enum kind kind;
    unsigned reg;
    uint64_t value, found;
    bool is_done;
    int pipe[2];
};

/* The server's own: each word, its owner or nobody, and what it held before that. */
struct word {
    uint64_t value, before;
    unsigned owner;
};

static struct slot slots[THREADS];
static struct word words[REGISTERS];
static int bell[2];
static pthread_once_t once = PTHREAD_ONCE_INIT;
#ifdef BELL
static const bool has_bell = true;
#else
static const bool has_bell = false;
#endif

static void wake(const int *pipe)
{
    if (write(pipe[1], "", 1) != 1)
        abort();
}

static void sleep_until(const int *pipe)
{
    char one;
    if (read(pipe[0], &one, 1) != 1)
        abort();
}

/* Ends the transaction of this owner. */
static void end(unsigned owner, bool restores)
{
    for (struct word *it = words; it < words + REGISTERS; it++)
        if (it->owner == owner) {
            it->value = restores ? it->before : it->value;
            it->owner = 0;
        }
}

/* Makes a client's call: whether the transaction goes on, or has committed. */
static bool make_call(struct slot *it, unsigned owner)
{
    struct word *word = &words[it->reg];
    bool is_use = it->kind == READ || it->kind == WRITE, is_refused = is_use && word->owner != 0 && word->owner != owner;
    if (is_refused || it->kind == COMMIT || it->kind == CANCEL)
        end(owner, it->kind != COMMIT);
    if (is_refused || !is_use)
        return !is_refused;
    word->before = word->owner == owner ? word->before : word->value;
    word->owner = owner;
    it->found = word->value;
    word->value = it->kind == WRITE ? it->value : word->value;
    return true;
}

static void *serve(void *unused)
{
    unsigned served[THREADS] = {0};
    for (;;) {
        bool has_found = false;
        for (unsigned i = 0; i < THREADS; i++) {
            unsigned posted = atomic_load_explicit(&slots[i].posted, memory_order_acquire);
            if (posted == served[i])
                continue;
            served[i] = posted;
            has_found = true;
            slots[i].is_done = make_call(&slots[i], i + 1);
            wake(slots[i].pipe);
        }
        if (has_bell)
            sleep_until(bell);
        else if (!has_found)
            sched_yield();
    }
    return unused;
}

static void start(void)
{
    pthread_t server;
    bool is_open = pipe(bell) == 0;
    for (unsigned i = 0; i < THREADS; i++)
        is_open = is_open && pipe(slots[i].pipe) == 0;
    if (!is_open || pthread_create(&server, NULL, serve, NULL) != 0)
        abort();
}

/* Has the server make a call. */
static bool ask(enum kind kind, unsigned reg, uint64_t value)
{
    struct slot *it = &slots[tmwatch_thread()];
    it->kind = kind;
    it->reg = reg;
    it->value = value;
    atomic_store_explicit(&it->posted, atomic_load_explicit(&it->posted, memory_order_relaxed) + 1, memory_order_release);
    if (has_bell)
        wake(bell);
    sleep_until(it->pipe);
    return it->is_done;
}

static bool begin(void *memory, void *tx)
{
    (void)memory, (void)tx;
    pthread_once(&once, start);
    return ask(BEGIN, 0, 0);
}

static bool read_value(void *memory, void *tx, unsigned reg, uint64_t *value)
{
    (void)memory, (void)tx;
    bool is_done = ask(READ, reg, 0);
    *value = slots[tmwatch_thread()].found;
    return is_done;
}

static bool write_value(void *memory, void *tx, unsigned reg, uint64_t value)
{
    (void)memory, (void)tx;
    return ask(WRITE, reg, value);
}

static bool commit(void *memory, void *tx)
{
    (void)memory, (void)tx;
    return ask(COMMIT, 0, 0);
}

static void cancel(void *memory, void *tx)
{
    (void)memory, (void)tx;
    ask(CANCEL, 0, 0);
}

static const tmwatch_memory memory = {NULL, 0, begin, read_value, write_value, NULL, commit, cancel, NULL};

TMWATCH_BENCH_MAIN(memory)
