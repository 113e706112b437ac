/*
Two benches at once by the orders of C++20: each has a memory of its own, and comes out as it does alone.
*/
#include "memories/ordered.h"
#include "../c/check.h"
#include <pthread.h>

/* One sequence lock over all words. By `is_wrong` no fence stands between a value and the second look. */
struct sequence {
    _Atomic uint64_t sequence, words[REGISTERS];
    bool is_wrong;
};

static bool begin(void *memory, void *tx)
{
    struct sequence *m = memory;
    uint64_t now;
    while ((now = LOAD(m->sequence, memory_order_acquire)) % 2 == 1)
        ;
    *(struct tx *)tx = (struct tx){.snapshot = now};
    return true;
}

static bool read(void *memory, void *tx, unsigned reg, uint64_t *value)
{
    struct sequence *m = memory;
    struct tx *it = tx;
    *value = it->writes[reg] ? it->written[reg] : LOAD(m->words[reg], relaxed);
    if (!m->is_wrong)
        atomic_thread_fence(memory_order_acquire);
    return LOAD(m->sequence, relaxed) == it->snapshot;
}

static bool commit(void *memory, void *tx)
{
    struct sequence *m = memory;
    struct tx *it = tx;
    uint64_t held = it->snapshot;
    if (!it->has_written)
        return true;
    if (!SWAP(m->sequence, &held, held + 1, memory_order_acq_rel))
        return false;
    atomic_thread_fence(memory_order_release);
    for (unsigned reg = 0; reg < REGISTERS; reg++)
        if (it->writes[reg])
            STORE(m->words[reg], it->written[reg], relaxed);
    STORE(m->sequence, it->snapshot + 2, memory_order_release);
    return true;
}

/* A bench: whether its memory is wrong, and what came out. */
struct run {
    bool is_wrong;
    tmwatch_bench_result result;
};

static void *run(void *to)
{
    struct run *it = to;
    struct sequence sequence = {.is_wrong = it->is_wrong};
    const tmwatch_memory memory = {&sequence, sizeof(struct tx), begin, read, keep_write, NULL, commit, forget, NULL};
    tmwatch_plan plan = TMWATCH_PLAN;
    plan.schedule = TMWATCH_STEPS;
    plan.orders = TMWATCH_CXX;
    plan.rounds = 2000;
    plan.seed = it->is_wrong ? 3 : 4;
    CHECK(tmwatch_bench(&memory, &plan, &it->result) == TMWATCH_OK);
    return NULL;
}

static void check_same(const tmwatch_bench_result *one, const tmwatch_bench_result *other)
{
    CHECK(one->result.verdict == other->result.verdict && one->result.at == other->result.at && one->rounds == other->rounds);
    CHECK(one->result.verdict == TMWATCH_VIOLATED || (one->steps == other->steps && one->context_switches == other->context_switches));
    CHECK(strcmp(one->stale_loads, other->stale_loads) == 0 && one->stalls == 0 && other->stalls == 0);
}

int main(void)
{
    static struct run alone[] = {{.is_wrong = true}, {.is_wrong = false}}, at_once[] = {{.is_wrong = true}, {.is_wrong = false}};
    pthread_t threads[2];
    for (unsigned i = 0; i < 2; i++)
        run(&alone[i]);
    for (unsigned i = 0; i < 2; i++)
        CHECK(pthread_create(&threads[i], NULL, run, &at_once[i]) == 0);
    for (unsigned i = 0; i < 2; i++) {
        CHECK(pthread_join(threads[i], NULL) == 0);
        check_same(&alone[i].result, &at_once[i].result);
    }
    CHECK(alone[0].result.result.verdict == TMWATCH_VIOLATED && strstr(alone[0].result.stale_loads, "stale load"));
    CHECK(alone[1].result.result.verdict == TMWATCH_OPAQUE_SO_FAR && alone[1].result.stale_loads[0] == '\0');
    return 0;
}
