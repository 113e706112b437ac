/* A bench whose registers begin at the values that its one thread would write first, and its trace, on standard output. */
#include "tmwatch_bench.h"
#include "check.h"

enum { REGISTERS = 3 };

/* As the bench draws: thread 0 writes 8k times this, for k from 1 on. */
static const uint64_t apart = 0x9E3779B97F4A7C15;
static uint64_t words[REGISTERS];

static bool begin(void *memory, void *tx)
{
    (void)memory, (void)tx;
    return true;
}

static bool read(void *memory, void *tx, unsigned reg, uint64_t *value)
{
    (void)memory, (void)tx;
    *value = words[reg];
    return true;
}

static bool write(void *memory, void *tx, unsigned reg, uint64_t value)
{
    (void)memory, (void)tx;
    words[reg] = value;
    return true;
}

static bool add(void *memory, void *tx, unsigned reg, uint64_t addend, uint64_t *before)
{
    return read(memory, tx, reg, before) && write(memory, tx, reg, *before + addend);
}

static bool commit(void *memory, void *tx)
{
    return begin(memory, tx);
}

static void cancel(void *memory, void *tx)
{
    (void)memory, (void)tx;
}

int main(void)
{
    static const tmwatch_memory memory = {NULL, 1, begin, read, write, add, commit, cancel, NULL};
    tmwatch_plan plan = TMWATCH_PLAN;
    tmwatch_bench_result result;
    plan.schedule = TMWATCH_STEPS;
    plan.rounds = 20;
    plan.threads = 1;
    plan.aborts = 0;
    plan.writes = 100;
    plan.trace = stdout;
    for (unsigned reg = 0; reg < REGISTERS; reg++)
        words[reg] = plan.start[reg] = 8 * (reg + 1) * apart;
    plan.registers = REGISTERS;
    CHECK(tmwatch_bench(&memory, &plan, &result) == TMWATCH_OK);
    return 0;
}
