/*
A memory on the bench that tests/runs.py has too, step by step. Whoever uses a word marks it with the number of its transaction until its
end; who meets another's mark is rolled back.

The environment's FAULT says what is wrong. By READS a read looks at no mark, so that the memory isn't opaque; by START a word holds another
value at first; by LOST commits take their writes back, from the 1500th on; by REFUSED all commits but each fifth are rolled back; by LEFT
roll-backs leave their marks, from the third on. By BEGIN, MARK, COMMIT, CANCEL and RUN the 200th of these never returns; by BOTH neither
does the 200th mark, and the reads shortly before find what nobody wrote. After any of them, or NONE, -RUNS says that the memory attempts
its transactions again by itself. LACKS names functions that it lacks.
*/
#include "tmwatch_bench.h"
#include <errno.h>
#include <stdatomic.h>
#include <stdlib.h>
#include <string.h>

enum { REGISTERS = 8, FIRST_LOST = 1500, DONE_EACH = 5, FIRST_LEFT = 3, ENDLESS = 200, SHORTLY = 5, NOBODYS = 12345 };
enum fault { NONE, READS, START, LOST, REFUSED, LEFT, BEGIN, MARK, COMMIT, CANCEL, RUN, BOTH };

struct tx {
    unsigned long self;
    bool is_over;
    uint64_t before[REGISTERS];
};

static const char *const faults[] = {"NONE", "READS", "START", "LOST", "REFUSED", "LEFT", "BEGIN", "MARK", "COMMIT", "CANCEL", "RUN", "BOTH"};
static enum fault fault;
static _Atomic uint64_t words[REGISTERS];
static atomic_ulong marks[REGISTERS], begun, marked, asked, aborted, runs;

/* Never returns from the call of this number, by this fault. */
static void stay(enum fault here, unsigned long number)
{
    while (fault == here && number == ENDLESS)
        TMWATCH_PAUSE();
}

static bool begin(void *memory, void *tx)
{
    (void)memory;
    ((struct tx *)tx)->self = ++begun;
    stay(BEGIN, ((struct tx *)tx)->self);
    ((struct tx *)tx)->is_over = false;
    return true;
}

/* Takes the marks off, maybe after the words hold again what they held before. */
static void clear(const struct tx *tx, bool restores, bool leaves)
{
    for (unsigned reg = 0; reg < REGISTERS; reg++)
        if (marks[reg] == tx->self) {
            TMWATCH_PAUSE();
            if (restores)
                words[reg] = tx->before[reg];
            if (!leaves)
                marks[reg] = 0;
        }
}

static void cancel(void *memory, void *tx)
{
    (void)memory;
    unsigned long number = ++aborted;
    ((struct tx *)tx)->is_over = true;
    stay(CANCEL, number);
    clear(tx, true, fault == LEFT && number >= FIRST_LEFT);
}

/* Marks a word: whether it is this transaction's then. */
static bool mark(struct tx *tx, unsigned reg)
{
    TMWATCH_PAUSE();
    unsigned long number = ++marked;
    stay(fault == BOTH ? BOTH : MARK, number);
    unsigned long owner = 0;
    if (atomic_compare_exchange_strong(&marks[reg], &owner, tx->self)) {
        tx->before[reg] = words[reg];
        return true;
    }
    if (owner != tx->self)
        cancel(NULL, tx);
    return owner == tx->self;
}

static bool read(void *memory, void *tx, unsigned reg, uint64_t *value)
{
    (void)memory;
    TMWATCH_PAUSE();
    if (fault != READS && !mark(tx, reg))
        return false;
    *value = fault == BOTH && marked + SHORTLY > ENDLESS ? NOBODYS : words[reg];
    return true;
}

static bool write(void *memory, void *tx, unsigned reg, uint64_t value)
{
    (void)memory;
    if (!mark(tx, reg))
        return false;
    words[reg] = value;
    return true;
}

static bool add(void *memory, void *tx, unsigned reg, uint64_t addend, uint64_t *before)
{
    return read(memory, tx, reg, before) && write(memory, tx, reg, *before + addend);
}

static bool commit(void *memory, void *tx)
{
    (void)memory;
    TMWATCH_PAUSE();
    unsigned long number = ++asked;
    stay(COMMIT, number);
    if (fault == REFUSED && number % DONE_EACH != 0) {
        cancel(NULL, tx);
        return false;
    }
    clear(tx, fault == LOST && number >= FIRST_LOST, false);
    return true;
}

static bool run(void *memory, void *tx, tmwatch_attempt *attempt)
{
    stay(RUN, ++runs);
    while (tmwatch_begin_attempt(attempt)) {
        begin(memory, tx);
        if (tmwatch_run_body(attempt)) {
            if (commit(memory, tx))
                return true;
        } else if (!((struct tx *)tx)->is_over)
            return cancel(memory, tx), false;
    }
    return false;
}

/* Whether the environment's LACKS names this function. */
static bool lacks(const char *name)
{
    const char *names = getenv("LACKS");
    return names && strstr(names, name);
}

int main(int count, char **given)
{
    tmwatch_memory memory = {NULL,
                             sizeof(struct tx),
                             lacks("begin") ? NULL : begin,
                             lacks("read") ? NULL : read,
                             lacks("write") ? NULL : write,
                             lacks("add") ? NULL : add,
                             lacks("commit") ? NULL : commit,
                             lacks("abort") ? NULL : cancel,
                             NULL};
    const char *name = getenv("FAULT");
    size_t length = name ? strcspn(name, "-") : 0;
    for (unsigned i = 0; i < sizeof faults / sizeof faults[0]; i++)
        if (name && strlen(faults[i]) == length && strncmp(name, faults[i], length) == 0)
            fault = (enum fault)i;
    words[0] = fault == START ? NOBODYS : 0;
    if (name && strcmp(name + length, "-RUNS") == 0)
        memory.run = run;
    errno = ERANGE; /* (what has failed before is no matter) */
    return tmwatch_bench_main(&memory, count, given);
}
