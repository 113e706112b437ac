/*
A memory of one lock on the bench, whose threads store by relaxed atomic stores what no other thread sees, and then use the bytes for other
things without a mark: a delayed store must not come out later. By -DKIND= the bytes are the transaction's own (TX), a local variable's
(LOCAL), a block's of the heap (HEAP), or such a block's that is made larger (GROWN). By REGISTERED each thread has a block of its own,
which it makes where the transaction's bytes say that it has none: they are all 0 before its first transaction, and then as it left them.
By ASSIGNED the transaction's bytes are stored to with a mark.
*/
#include "tmwatch_bench.h"
#include <pthread.h>
#include <stdatomic.h>
#include <stdlib.h>
#include <string.h>

#ifndef KIND
#define KIND TX
#endif

enum { REGISTERS = 8, WRONG = 0xbad };
enum kind { TX, LOCAL, HEAP, GROWN, REGISTERED, ASSIGNED };

struct tx {
    bool is_registered;
    uint64_t before[REGISTERS];
    _Atomic uint64_t status;
};

struct node {
    _Atomic uint64_t first, second;
};

static const enum kind kind = KIND;
static _Thread_local uint64_t *own;
static uint64_t words[REGISTERS];
static pthread_mutex_t mutex = PTHREAD_MUTEX_INITIALIZER;

/* A local variable that others may be told of, as a wait node on the stack. */
__attribute__((noinline)) static void store_local(void)
{
    _Atomic uint64_t flag;
    atomic_store_explicit(&flag, WRONG, memory_order_relaxed);
    __asm__ volatile("" ::"r"(&flag) : "memory");
}

/* The value, if four copies of it on the stack are as they were stored. */
__attribute__((noinline)) static uint64_t copied(uint64_t value)
{
    volatile uint64_t copy[4] = {value, value, value, value};
    TMWATCH_PAUSE();
    return copy[0] == value && copy[1] == value && copy[2] == value && copy[3] == value ? value : WRONG;
}

/* A node of the heap that is given back while a store to it may be delayed, and then a block that may lie there. */
static uint64_t through_heap(uint64_t value)
{
    struct node *node = malloc(sizeof *node);
    atomic_store_explicit(&node->first, WRONG, memory_order_relaxed);
    atomic_store_explicit(&node->second, WRONG, memory_order_relaxed);
    if (kind == GROWN)
        node = realloc(node, 4096);
    free(node);
    uint64_t *copy = malloc(sizeof *node);
    memset(copy, 0, sizeof *node);
    copy[0] = copy[1] = value;
    TMWATCH_PAUSE();
    uint64_t found = copy[0] == value && copy[1] == value ? value : WRONG;
    free(copy);
    return found;
}

static bool begin(void *memory, void *tx)
{
    struct tx *it = tx;
    (void)memory;
    if (kind == REGISTERED && it->is_registered != (own != NULL))
        abort();
    if (kind == REGISTERED && !it->is_registered)
        own = calloc(1, sizeof words);
    atomic_store_explicit(&it->status, 1, memory_order_relaxed);
    if (kind == ASSIGNED)
        *(uint64_t *)(void *)&it->status = 0;
    else
        memset(it, 0, sizeof *it);
    it->is_registered = true;
    pthread_mutex_lock(&mutex);
    memcpy(kind == REGISTERED ? own : it->before, words, sizeof words);
    return true;
}

static bool read(void *memory, void *tx, unsigned reg, uint64_t *value)
{
    struct tx *it = tx;
    (void)memory;
    *value = words[reg];
    if (kind == LOCAL) {
        store_local();
        *value = copied(*value);
    }
    if (kind == HEAP || kind == GROWN)
        *value = through_heap(*value);
    if (atomic_load_explicit(&it->status, memory_order_relaxed) != 0)
        *value = WRONG;
    return true;
}

static bool write(void *memory, void *tx, unsigned reg, uint64_t value)
{
    (void)memory, (void)tx;
    words[reg] = value;
    return true;
}

static bool commit(void *memory, void *tx)
{
    (void)memory, (void)tx;
    pthread_mutex_unlock(&mutex);
    return true;
}

static void cancel(void *memory, void *tx)
{
    memcpy(words, kind == REGISTERED ? own : ((struct tx *)tx)->before, sizeof words);
    commit(memory, tx);
}

static const tmwatch_memory memory = {NULL, sizeof(struct tx), begin, read, write, NULL, commit, cancel, NULL};

TMWATCH_BENCH_MAIN(memory)
