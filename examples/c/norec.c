/*
The little memory of examples/recorders (after NOrec) on the bench: all that you write for a memory of your own.

    cc -O2 -pthread -DTMWATCH_PAUSES -Ibuilt/include -o norec examples/c/norec.c built/lib/libtmwatch_bench.a built/lib/libtmwatch.a
    ./norec --rounds 20000

-DFAULT=READS leaves the validation of reads out of the memory; COMMIT and PLACE are other faults (memory.h).
*/
#include "tmwatch_bench.h"
#include "tmwatch/memory.h"

#ifndef FAULT
#define FAULT NONE
#endif

static enum fault fault = FAULT;
static _Atomic uint64_t words[8];

/* A call that answers false leaves nothing of the transaction. */
static bool undo_unless(bool is_done, void *tx)
{
    if (!is_done)
        memory_undo(tx);
    return is_done;
}

static bool norec_begin(void *memory, void *tx)
{
    (void)memory;
    memory_begin(tx);
    return true;
}

static bool norec_read(void *memory, void *tx, unsigned reg, uint64_t *value)
{
    (void)memory;
    return undo_unless(memory_read(tx, &words[reg], value), tx);
}

static bool norec_write(void *memory, void *tx, unsigned reg, uint64_t value)
{
    (void)memory;
    return undo_unless(memory_write(tx, &words[reg], value), tx);
}

static bool norec_add(void *memory, void *tx, unsigned reg, uint64_t addend, uint64_t *before)
{
    return norec_read(memory, tx, reg, before) && norec_write(memory, tx, reg, *before + addend);
}

static bool norec_commit(void *memory, void *tx)
{
    (void)memory;
    return undo_unless(memory_commit(tx), tx);
}

static void norec_abort(void *memory, void *tx)
{
    (void)memory;
    memory_undo(tx);
}

static const tmwatch_memory memory = {NULL,      sizeof(struct tx), norec_begin, norec_read, norec_write,
                                      norec_add, norec_commit,      norec_abort, NULL};

TMWATCH_BENCH_MAIN(memory)
