/* What is drawn from the seed: transactions, what they write and add, and who makes how many. */

/* Odd numbers, which keep apart what they multiply: of a round's draws, and of the values that are written. */
static const uint64_t apart_rounds = 0xD1342543DE82EF95, apart_values = 0x9E3779B97F4A7C15;

/* A number below `below` (Steele, Lea and Flood, OOPSLA 2014). */
static uint64_t draw(uint64_t *draws, uint64_t below)
{
    uint64_t word = *draws += 0x9E3779B97F4A7C15;
    word = (word ^ word >> 30) * 0xBF58476D1CE4E5B9;
    word = (word ^ word >> 27) * 0x94D049BB133111EB;
    return (word ^ word >> 31) % below;
}

/* By how much small values of one thread differ, so that others have theirs between; and what addends are below. */
enum { SMALL_APART = 2 * MOST_THREADS, SMALL_ADDENDS = 1 << 16 };

/* A value that no register began with and nobody else writes: no number comes twice, as the factor is odd. Looks have the other half of all. */
static uint64_t fresh_value(tmwatch_attempt *a)
{
    const tmwatch_plan *plan = &a->bench->plan;
    bool looks = a->by->looks;
    uint64_t value, *count = looks ? &a->bench->looked : &a->written;
    bool is_start;
    do {
        ++*count;
        value = looks ? (UINT64_C(1) << 63) + *count : *count * MOST_THREADS + a->thread;
        value = plan->small ? *count * SMALL_APART + (looks ? MOST_THREADS : a->thread) : value * apart_values;
        is_start = false;
        for (unsigned reg = 0; reg < plan->registers; reg++)
            is_start = is_start || plan->start[reg] == value;
    } while (is_start);
    return value;
}

static void add_call(tmwatch_attempt *a, char letter, uint64_t reg)
{
    a->now.calls[a->now.count++] = (tmwatch_call){(uint32_t)letter, reg, 0};
}

/* A transaction uses registers, one after another: it adds to one, or reads it, and then may write it. A blind one writes each. */
static void draw_transaction(tmwatch_attempt *a)
{
    const tmwatch_plan *plan = &a->bench->plan;
    a->now.most = plan->attempts > 0 && plan->attempts < a->left ? plan->attempts : a->left;
    a->now.count = 0;
    bool asks_abort = draw(&a->draws, 100) < plan->aborts;
    bool is_blind = draw(&a->draws, 100) < plan->blind_writes && plan->writes > 0;
    for (uint64_t used = 0; used < a->uses; used++) {
        uint64_t reg = draw(&a->draws, plan->registers);
        bool adds = draw(&a->draws, 100) < plan->adds && a->bench->memory.add;
        bool writes = draw(&a->draws, 100) < plan->writes && !adds;
        if (!is_blind)
            add_call(a, adds ? 'N' : 'R', reg);
        if (writes || is_blind)
            add_call(a, 'W', reg);
    }
    add_call(a, asks_abort ? 'X' : 'T', 0);
}

/* Draws whether the round, if there are rounds, is mixed: one thread makes a long transaction, others several short ones. All draw the same. */
static bool draw_mix(const struct bench *b, uint64_t *draws)
{
    *draws = b->plan.seed * apart_rounds + b->round;
    return b->round > 0 && b->plan.threads > 1 && draw(draws, 100) < b->plan.mixed_rounds;
}

/* Draws the thread's share of a round: whether that is mixed. Then all have eight attempts, of which the long transaction has one. */
static bool draw_share(tmwatch_attempt *a)
{
    const tmwatch_plan *plan = &a->bench->plan;
    uint64_t draws, threads = plan->threads;
    a->uses = plan->accesses;
    a->left = plan->attempts > 0 ? plan->attempts : most_of_thread(plan);
    if (!draw_mix(a->bench, &draws))
        return false;
    uint64_t first = draw(&draws, threads), others = 1 + draw(&draws, threads - 1);
    a->left = a->thread == first;
    for (unsigned i = 1; i < MOST_ATTEMPTS - plan->crashes; i++)
        a->left += a->thread == (first + 1 + draw(&draws, others)) % threads;
    a->uses = a->thread != first ? 1 + draw(&a->draws, 2) : 2 * plan->accesses < MOST_USES ? 2 * plan->accesses : MOST_USES;
    return true;
}
