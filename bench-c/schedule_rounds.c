/* In rounds: each thread makes its share, and waits for all others. */

/* Waits one time in two a few turns, and lets another thread run one time in 64, unless calls do anyway. */
static void pause_freely(tmwatch_attempt *a, unsigned pauses UNUSED)
{
    uint64_t most = a->bench->plan.pause;
    if (most == 0)
        return;
    bool waits = draw(&a->pauses, 2) == 0;
    for (volatile uint64_t turns = waits ? draw(&a->pauses, most) : 0; turns > 0; turns--)
        ;
    if (!a->bench->has_asked && draw(&a->pauses, 64) == 0)
        sched_yield();
}

/* Decides whether another round follows this one, and looks if that is due: for the last thread of it. */
static void end_round(tmwatch_attempt *a, uint64_t round)
{
    struct bench *b = a->bench;
    b->is_over = b->stops || b->is_late || round == b->plan.rounds;
    if (!b->is_over && round + 1 == b->plan.round && b->plan.event == 0)
        tmwatch_breakpoint();
    if (!b->stops && (b->is_over || round % LOOK == 0 || (b->plan.audit_first && round + 1 == b->plan.round)))
        look(a);
    b->is_over = b->is_over || b->has_rejected;
}

/* Waits for all threads: whether another round follows. If the memory asks outside, the thread sleeps: what is asked needs the processors. */
static bool meet(tmwatch_attempt *a)
{
    struct bench *b = a->bench;
    uint64_t round = b->round;
    wait_for_room(a);
    if (atomic_fetch_add(&b->here, 1) + 1 == b->plan.threads) {
        end_round(a, round);
        b->here = 0;
        b->round = round + 1;
        for (unsigned i = 0; b->has_asked && i < b->plan.threads; i++)
            if (i != a->thread)
                post(&b->steps.go[i]);
    }
    for (unsigned turns = 1; b->round == round; turns++)
        if (b->has_asked)
            await(&b->steps.go[a->thread]);
        else if (turns % 256 == 0)
            sched_yield();
    return !b->is_over;
}

static void count_rounds(const struct bench *b, tmwatch_bench_result *out)
{
    out->rounds = b->round > 0 ? b->round - 1 : 0; /* (after the last one the threads have met once more) */
}

static const struct schedule in_rounds = {.next = meet, .pause = pause_freely, .count = count_rounds};
