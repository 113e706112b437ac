/*
A memory with visible readers, after TLRW (Dice and Shavit, SPAA 2010), on the bench. A thread that reads a word raises its flag there,
and then looks whether the word is locked. One that writes locks the word, and then looks at the flags of all others. Flags and locks are
kept to the transaction's end. It writes in place, and aborts rather than waits.

Between its flag and its look a reader has a fence. By -DFAULT=FENCE it has none: the look may be made while the flag is still in the
processor's store buffer. By LEAK a transaction that aborts keeps its flag on register 0: nobody else writes that word any more.

-DFLAGS=memory_order_acquire: a writer loads the flags by a weaker order, which C++20 doesn't keep after the exchange that locks the word.
*/
#include "tmwatch_bench.h"
#include <stdatomic.h>

#ifndef FAULT
#define FAULT NONE
#endif

#ifndef FLAGS
#define FLAGS memory_order_seq_cst
#endif

enum { REGISTERS = 8, THREADS = 8 };
enum fault { NONE, FENCE, LEAK };

struct word {
    _Atomic uint64_t value;
    atomic_bool is_locked, is_read[THREADS];
};

struct tx {
    bool reads[REGISTERS], writes[REGISTERS];
    uint64_t before[REGISTERS];
};

static const enum fault fault = FAULT;
static struct word words[REGISTERS];

static bool begin(void *memory, void *tx)
{
    (void)memory;
    *(struct tx *)tx = (struct tx){0};
    return true;
}

/* Gives back the locks, and the flags from register `first` on. */
static void give_back(const struct tx *tx, unsigned first)
{
    for (unsigned reg = 0; reg < REGISTERS; reg++) {
        if (tx->writes[reg])
            atomic_store_explicit(&words[reg].is_locked, false, memory_order_release);
        if (tx->reads[reg] && reg >= first)
            atomic_store_explicit(&words[reg].is_read[tmwatch_thread()], false, memory_order_release);
    }
}

static bool commit(void *memory, void *tx)
{
    (void)memory;
    give_back(tx, 0);
    return true;
}

static void cancel(void *memory, void *tx)
{
    struct tx *it = tx;
    (void)memory;
    for (unsigned reg = 0; reg < REGISTERS; reg++)
        if (it->writes[reg])
            atomic_store_explicit(&words[reg].value, it->before[reg], memory_order_relaxed);
    give_back(tx, fault == LEAK);
}

/* A call that answers false leaves nothing of the transaction. */
static bool undo_unless(bool is_done, void *tx)
{
    if (!is_done)
        cancel(NULL, tx);
    return is_done;
}

static bool raise_flag(struct tx *tx, unsigned reg)
{
    if (tx->reads[reg] || tx->writes[reg])
        return true;
    tx->reads[reg] = true;
    atomic_store_explicit(&words[reg].is_read[tmwatch_thread()], true, memory_order_release);
    if (fault != FENCE)
        atomic_thread_fence(memory_order_seq_cst);
    TMWATCH_PAUSE();
    return !atomic_load_explicit(&words[reg].is_locked, memory_order_acquire);
}

static bool read(void *memory, void *tx, unsigned reg, uint64_t *value)
{
    (void)memory;
    if (!undo_unless(raise_flag(tx, reg), tx))
        return false;
    *value = atomic_load_explicit(&words[reg].value, memory_order_acquire);
    return true;
}

/* Whether another thread reads the word. */
static bool has_readers(unsigned reg)
{
    for (unsigned i = 0; i < THREADS; i++)
        /* (C++20 orders no acquire load after the exchange that has locked the word) */
        if (i != tmwatch_thread() && atomic_load_explicit(&words[reg].is_read[i], FLAGS))
            return true;
    return false;
}

static bool take_lock(struct tx *tx, unsigned reg)
{
    if (tx->writes[reg])
        return true;
    if (atomic_exchange(&words[reg].is_locked, true))
        return false;
    tx->before[reg] = atomic_load_explicit(&words[reg].value, memory_order_acquire);
    tx->writes[reg] = true;
    TMWATCH_PAUSE();
    return !has_readers(reg);
}

static bool write(void *memory, void *tx, unsigned reg, uint64_t value)
{
    (void)memory;
    if (!undo_unless(take_lock(tx, reg), tx))
        return false;
    atomic_store_explicit(&words[reg].value, value, memory_order_relaxed);
    TMWATCH_PAUSE();
    return true;
}

static bool add(void *memory, void *tx, unsigned reg, uint64_t addend, uint64_t *before)
{
    return read(memory, tx, reg, before) && write(memory, tx, reg, *before + addend);
}

static const tmwatch_memory memory = {NULL, sizeof(struct tx), begin, read, write, add, commit, cancel, NULL};

TMWATCH_BENCH_MAIN(memory)
