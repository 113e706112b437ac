/*
Two-phase locking (Eswaran, Gray, Lorie and Traiger, CACM 1976), a lock for each word; who meets one aborts.

WRONG: 1 a lock is taken relaxed; 2 given back relaxed.
*/
#include "ordered.h"

struct word {
    atomic_bool is_locked;
    _Atomic uint64_t value;
};

static struct word words[REGISTERS];

static bool begin(void *memory UNUSED, void *tx)
{
    *(struct tx *)tx = (struct tx){0};
    return true;
}

static bool commit(void *memory UNUSED, void *tx)
{
    struct tx *it = tx;
    for (unsigned reg = 0; reg < REGISTERS; reg++)
        if (it->holds[reg])
            STORE(words[reg].is_locked, false, ORDER(2, release, relaxed));
    return true;
}

static void cancel(void *memory, void *tx)
{
    struct tx *it = tx;
    for (unsigned reg = 0; reg < REGISTERS; reg++)
        if (it->writes[reg])
            STORE(words[reg].value, it->before[reg], relaxed);
    commit(memory, tx);
}

static bool take_lock(struct tx *tx, unsigned reg)
{
    if (!tx->holds[reg] && atomic_exchange_explicit(&words[reg].is_locked, true, ORDER(1, acquire, relaxed))) {
        cancel(NULL, tx);
        return false;
    }
    tx->holds[reg] = true;
    return true;
}

static bool read(void *memory UNUSED, void *tx, unsigned reg, uint64_t *value)
{
    if (!take_lock(tx, reg))
        return false;
    *value = LOAD(words[reg].value, relaxed);
    return true;
}

static bool write(void *memory UNUSED, void *tx, unsigned reg, uint64_t value)
{
    struct tx *it = tx;
    if (!take_lock(it, reg))
        return false;
    if (!it->writes[reg])
        it->before[reg] = LOAD(words[reg].value, relaxed);
    it->writes[reg] = true;
    STORE(words[reg].value, value, relaxed);
    return true;
}

BENCH(begin, read, write, commit, cancel)
