/*
A bank's accounts on the bench, by a main of its own.

    bank ROUNDS [broken]

The bank stores all that a transaction writes when it commits, and its version is odd meanwhile. A broken bank doesn't look whether the
version is still the one at which the transaction began. The exit status is the number of the verdict, as that of `tmwatch judge`, or 4.
*/
#include "tmwatch_bench.h"
#include <sched.h>
#include <stdatomic.h>
#include <stdlib.h>
#include <string.h>

enum { ACCOUNTS = 4, START = 100 };

struct bank {
    _Atomic uint64_t version, accounts[ACCOUNTS];
    bool is_broken;
};

struct tx {
    uint64_t version, value[ACCOUNTS];
    bool is_written[ACCOUNTS];
};

static bool begin(void *memory, void *transaction)
{
    struct bank *bank = memory;
    struct tx *tx = transaction;
    memset(tx, 0, sizeof *tx);
    while ((tx->version = bank->version) % 2 == 1) {
        TMWATCH_PAUSE();
        sched_yield();
    }
    return true;
}

static bool read(void *memory, void *transaction, unsigned account, uint64_t *value)
{
    struct bank *bank = memory;
    struct tx *tx = transaction;
    *value = tx->is_written[account] ? tx->value[account] : bank->accounts[account];
    return bank->is_broken || bank->version == tx->version;
}

static bool write(void *memory, void *transaction, unsigned account, uint64_t value)
{
    struct tx *tx = transaction;
    (void)memory;
    tx->is_written[account] = true;
    tx->value[account] = value;
    return true;
}

/* Pays in; paying out adds a number's complement. */
static bool add(void *memory, void *transaction, unsigned account, uint64_t addend, uint64_t *before)
{
    return read(memory, transaction, account, before) && write(memory, transaction, account, *before + addend);
}

static bool commit(void *memory, void *transaction)
{
    struct bank *bank = memory;
    struct tx *tx = transaction;
    static const bool none[ACCOUNTS];
    if (memcmp(tx->is_written, none, sizeof none) == 0)
        return true;
    uint64_t expected = tx->version;
    if (!atomic_compare_exchange_strong(&bank->version, &expected, tx->version + 1))
        return false;
    for (unsigned account = 0; account < ACCOUNTS; account++) {
        TMWATCH_PAUSE();
        if (tx->is_written[account])
            bank->accounts[account] = tx->value[account];
    }
    bank->version = tx->version + 2;
    return true;
}

/* Nothing is stored before a commit, so that nothing is undone. */
static void cancel(void *memory, void *transaction)
{
    (void)memory;
    (void)transaction;
}

int main(int count, char **words)
{
    static struct bank bank;
    const tmwatch_memory memory = {&bank, sizeof(struct tx), begin, read, write, add, commit, cancel, NULL};
    tmwatch_plan plan = TMWATCH_PLAN;
    tmwatch_bench_result result;
    plan.rounds = count > 1 ? strtoull(words[1], NULL, 10) : 1000;
    plan.registers = ACCOUNTS;
    plan.adds = 60;
    bank.is_broken = count > 2 && strcmp(words[2], "broken") == 0;
    for (unsigned account = 0; account < ACCOUNTS; account++)
        bank.accounts[account] = plan.start[account] = START;
    uint32_t status = tmwatch_bench(&memory, &plan, &result);
    if (status != TMWATCH_OK) {
        fprintf(stderr, "bank: the bench was answered %u\n", (unsigned)status);
        return 4;
    }
    tmwatch_bench_print(stdout, &result);
    return fflush(stdout) == 0 && !ferror(stdout) ? (int)result.result.verdict : 4;
}
