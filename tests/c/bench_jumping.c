/*
The little memory behind calls that don't come back when the transaction is rolled back: it begins again by longjmp, as GCC's libitm does.
Bench: `run`. By -DFAULT=READS the validation of reads is left out. By -DWRONG=1 `run` tells that what was to abort has committed, and by 2
it makes the calls twice.
*/
#include "tmwatch_bench.h"
#include "tmwatch/memory.h"
#include <setjmp.h>

#ifndef FAULT
#define FAULT NONE
#endif

#ifndef WRONG
#define WRONG 0
#endif

static enum fault fault = FAULT;
static _Atomic uint64_t words[8];

struct jumping {
    struct tx tx;
    jmp_buf beginning;
};

/* Rolls back, and goes to where the transaction begins. */
_Noreturn static void restart(struct jumping *it)
{
    memory_undo(&it->tx);
    longjmp(it->beginning, 1);
}

static bool read(void *memory, void *tx, unsigned reg, uint64_t *value)
{
    struct jumping *it = tx;
    (void)memory;
    if (!memory_read(&it->tx, &words[reg], value))
        restart(it);
    return true;
}

static bool write(void *memory, void *tx, unsigned reg, uint64_t value)
{
    struct jumping *it = tx;
    (void)memory;
    if (!memory_write(&it->tx, &words[reg], value))
        restart(it);
    return true;
}

static bool run(void *memory, void *tx, tmwatch_attempt *attempt)
{
    struct jumping *it = tx;
    (void)memory;
    setjmp(it->beginning);
    if (!tmwatch_begin_attempt(attempt))
        return false;
    memory_begin(&it->tx);
    if (!tmwatch_run_body(attempt) || (WRONG == 2 && !tmwatch_run_body(attempt))) {
        memory_undo(&it->tx);
        return WRONG == 1;
    }
    if (!memory_commit(&it->tx))
        restart(it);
    return true;
}

static const tmwatch_memory memory = {NULL, sizeof(struct jumping), NULL, read, write, NULL, NULL, NULL, run};

TMWATCH_BENCH_MAIN(memory)
