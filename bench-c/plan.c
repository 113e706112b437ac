/* A plan: what it leaves to be drawn, and whether it can be run; and what came out of one. */

/* The number that stands there in a plan, or in what came out. */
static uint64_t *number_of(void *it, size_t at)
{
    return (uint64_t *)((char *)it + at);
}

/* How many attempts a thread's transaction may have. */
static uint64_t most_of_thread(const tmwatch_plan *plan)
{
    return plan->schedule == TMWATCH_PERMITS ? UINT64_MAX : (MOST_ATTEMPTS - plan->crashes) / plan->threads;
}

/* What a plan may leave to be drawn: where it stands, and its range; and what it is if nothing is drawn. */
static const struct drawn {
    size_t to;
    uint64_t least, most; /* clang-format off */
} drawn[] = {{TO(threads), 1, MOST_THREADS}, {TO(registers), 1, MOST_REGISTERS}, {TO(accesses), 1, MOST_USES}, {TO(writes), 0, 100},
             {TO(adds), 0, 100}, {TO(aborts), 0, 100}, {TO(pause), 0, 1 << 20}, {TO(mixed_rounds), 0, 100}, {TO(blind_writes), 0, 100},
             {TO(orders), TMWATCH_SEQUENTIAL, TMWATCH_CXX}}; /* clang-format on */
enum { DRAWN = sizeof drawn / sizeof drawn[0] };
static const tmwatch_plan usual = {
    .threads = 4, .registers = 3, .accesses = 3, .writes = 50, .adds = 20, .aborts = 12, .pause = 100, .mixed_rounds = 50, .blind_writes = 10};

/* The plan with what it leaves to be drawn, which is as in the other one. */
static tmwatch_plan filled_plan(const tmwatch_plan *plan, tmwatch_plan numbers)
{
    tmwatch_plan it = *plan;
    for (unsigned i = 0; i < DRAWN; i++)
        if (*number_of(&it, drawn[i].to) == TMWATCH_RANDOM)
            *number_of(&it, drawn[i].to) = *number_of(&numbers, drawn[i].to);
    return it;
}

/* The first function that is null and that the memory has to have, or none. */
static const char *missing_function(const tmwatch_memory *m)
{
    if (!m->read || !m->write || m->run)
        return !m->read ? "read" : !m->write ? "write" : NULL;
    return !m->begin ? "begin" : !m->commit ? "commit" : !m->abort ? "abort" : NULL;
}

/* Whether the memory is compiled and linked for the plan's orders, and goes by them by this schedule: only steps show what isn't seen. */
static bool has_orders(const tmwatch_plan *plan)
{
    bool has_steps = plan->schedule == TMWATCH_STEPS || plan->schedule == TMWATCH_ALL;
    return plan->orders == TMWATCH_SEQUENTIAL || (tmwatch_orders_new && has_steps && !tmwatch_step_unwrapped());
}

/* Looks at what no watch looks at. */
static uint32_t check(const tmwatch_memory *memory, const tmwatch_plan *given)
{
    tmwatch_plan plan = filled_plan(given, usual);
    if (missing_function(memory))
        return TMWATCH_MISSING_FUNCTION;
    if (plan.crashes > 1 || plan.threads < 1 || plan.threads > MOST_THREADS - plan.crashes)
        return TMWATCH_BAD_SIZE;
    if (plan.registers < 1 || plan.registers > MOST_REGISTERS)
        return TMWATCH_BAD_REGISTERS;
    for (uint64_t reg = plan.registers; reg < MOST_REGISTERS; reg++)
        if (plan.start[reg] != 0)
            return TMWATCH_BAD_START;
    for (unsigned i = 0; i < DRAWN; i++)
        if (*number_of(&plan, drawn[i].to) < drawn[i].least || *number_of(&plan, drawn[i].to) > drawn[i].most)
            return TMWATCH_BAD_BOUNDS;
    uint64_t most_round = plan.schedule == TMWATCH_STEPS ? UINT64_MAX : plan.schedule == TMWATCH_ALL ? STEPS_LEGS * LEG_ROUNDS : 0;
    bool is_wrong = plan.schedule > TMWATCH_ALL || plan.races > 1 || plan.attempts > most_of_thread(&plan) || plan.rounds == 0 ||
                    plan.round > most_round || (plan.crashes && plan.schedule == TMWATCH_PERMITS) || (plan.event > 0 && plan.round == 0) ||
                    !has_orders(&plan);
    return is_wrong ? TMWATCH_BAD_BOUNDS : TMWATCH_OK;
}

/* Whether the bench tells what came out. */
static bool has_run(uint32_t status)
{
    return status == TMWATCH_OK || (status >= TMWATCH_HANG && status <= TMWATCH_INTERRUPTED);
}

/* Whether the memory hangs. After an interrupt that isn't known. */
static bool hangs(const struct session *session)
{
    return session->stuck > 0 && session->stuck != TMWATCH_INTERRUPTED;
}

/* Whether what came out is wrong: another verdict, or a race, if the plan has that fail. */
static bool is_wrong(const tmwatch_plan *plan, const tmwatch_bench_result *out)
{
    return out->result.verdict != TMWATCH_OPAQUE_SO_FAR || (plan->races > 0 && out->race[0]);
}

/* Whether the words make the same run: there are none for the start. */
static bool are_certain(const tmwatch_bench_result *result)
{
    static const uint64_t none[MOST_REGISTERS];
    return result->is_deterministic && memcmp(result->reproducer.start, none, sizeof none) == 0;
}

/* The numbers of what came out that are added up over the legs. */
#define OF(field) offsetof(tmwatch_bench_result, field)
static const size_t summed[] = {/* clang-format off */
    OF(result.events),         OF(counts.aborted), OF(counts.committed), OF(counts.cuts), OF(counts.live), OF(counts.concurrent),
    OF(counts.transactions), OF(counts.forced_aborts), OF(rounds),           OF(steps),       OF(context_switches),    OF(stalls),
    OF(waits),               OF(crashes),        OF(stores)}; /* clang-format on */

static void add_leg(tmwatch_bench_result *all, const tmwatch_bench_result *leg)
{
    tmwatch_bench_result before = *all;
    *all = *leg;
    for (unsigned i = 0; i < sizeof summed / sizeof summed[0]; i++)
        *number_of(all, summed[i]) += *number_of(&before, summed[i]);
    all->max_interleaved_commits = leg->max_interleaved_commits > before.max_interleaved_commits ? leg->max_interleaved_commits
                                                                                                 : before.max_interleaved_commits;
    all->counts.max_window = leg->counts.max_window > before.counts.max_window ? leg->counts.max_window : before.counts.max_window;
    all->result.at += leg->result.at > 0 ? before.result.events : 0;
    all->counts.none_overlapped &= before.result.events == 0 || before.counts.none_overlapped;
    all->untracked |= before.untracked;
    if (!leg->race[0])
        memcpy(all->race, before.race, sizeof all->race);
    if (!leg->stale_loads[0])
        memcpy(all->stale_loads, before.stale_loads, sizeof all->stale_loads);
}
