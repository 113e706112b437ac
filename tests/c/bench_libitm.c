/*
GCC's libitm on the bench, by `run`. Compile it with -fgnu-tm. ITM_DEFAULT_METHOD chooses libitm's method.

libitm begins a transaction again when it has rolled it back. Here such an attempt is cancelled before it reads anything, and `run` begins
another one. So tmwatch_begin_attempt is called before libitm begins, and while it holds nothing.
*/
#include "tmwatch_bench.h"

/* The interface's: a read and a write within a transaction. */
uint64_t _ITM_RU8(const uint64_t *word);
void _ITM_WU8(uint64_t *word, uint64_t value);

/* Words far enough apart that libitm doesn't take two for one. */
struct word {
    _Alignas(64) uint64_t value;
};

/* How often libitm has begun the attempt, and whether that commits. They are volatile, since GCC takes it that a block begins once. */
struct tx {
    volatile unsigned begun;
    volatile bool commits;
};

static struct word words[8];

static bool read(void *memory, void *tx, unsigned reg, uint64_t *value)
{
    (void)memory;
    (void)tx;
    *value = _ITM_RU8(&words[reg].value);
    return true;
}

static bool write(void *memory, void *tx, unsigned reg, uint64_t value)
{
    (void)memory;
    (void)tx;
    _ITM_WU8(&words[reg].value, value);
    return true;
}

static bool add(void *memory, void *tx, unsigned reg, uint64_t addend, uint64_t *before)
{
    return read(memory, tx, reg, before) && write(memory, tx, reg, *before + addend);
}

/* Makes the calls, unless the block has begun again: false if it is to be cancelled. A roll-back undoes nothing of this. */
__attribute__((transaction_pure)) static bool make_calls(struct tx *tx, tmwatch_attempt *attempt)
{
    tx->begun++;
    tx->commits = tx->begun == 1 && tmwatch_run_body(attempt);
    return tx->commits;
}

static bool run(void *memory, void *tx, tmwatch_attempt *attempt)
{
    struct tx *it = tx;
    (void)memory;
    it->commits = false;
    while (!it->commits && tmwatch_begin_attempt(attempt)) {
        it->begun = 0;
        __transaction_atomic
        {
            if (!make_calls(it, attempt))
                __transaction_cancel;
        }
    }
    return it->commits;
}

static const tmwatch_memory memory = {NULL, sizeof(struct tx), NULL, read, write, add, NULL, NULL, run};

TMWATCH_BENCH_MAIN(memory)
