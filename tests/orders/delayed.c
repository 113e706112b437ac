/*
Which loads bench-c/instrumented/orders/delayed.c finds that may be delayed past later stores, and which accesses a second run has to repeat.
In each program thread 0 loads X, which a read answers, and then stores Y. Thread 1 reads that, and then stores X. No load is stale.
*/
#define draw_below(draws, below) ((void)(draws), (void)(below), 0u)
#include "program.c"
#include "../c/check.h"

enum { ANSWERS = UNLOCK + 1, FORGETS, LATE, MOST_STEPS = 12, MOST_LINES = TMWATCH_MOST_DELAYS };

/* An operation of a thread. ANSWERS: a read of what the thread has loaded last, and so much more. LATE: no store is the newest from here on. */
struct made {
    unsigned thread, kind;
    enum word word;
    uint64_t value;
    int order;
};

/* The program that all vary, and its parts. */
#define LOADS {0, READ, X, 0, RELAXED}
#define ANSWERED {0, ANSWERS, X, 0, 0}
#define STORES {0, WRITE, Y, 1, RELAXED}
#define MEETS {1, READ, Y, 0, RELAXED}
#define LAST {1, WRITE, X, 2, RELAXED}
#define PLAINEST LOADS, ANSWERED, STORES, MEETS, LAST
static const struct {
    const char *name;
    unsigned found;
    struct made steps[MOST_STEPS];
} programs[] = {
    {"relaxed", 1, {PLAINEST}},
    {"two stores of the other thread", 1, {PLAINEST, {1, WRITE, X, 3, RELAXED}}},
    {"two loads", 2, {LOADS, ANSWERED, {2, READ, X, 0, RELAXED}, {2, ANSWERS, X, 0, 0}, STORES, {2, WRITE, Z, 1, RELAXED}, MEETS,
                      {1, READ, Z, 0, RELAXED}, LAST}},
    {"no answer", 0, {LOADS, STORES, MEETS, LAST}},
    {"another answer", 0, {LOADS, {0, ANSWERS, X, 1, 0}, STORES, MEETS, LAST}},
    {"another thread's answer", 0, {{2, READ, Z, 0, RELAXED}, LOADS, {2, ANSWERS, X, 0, 0}, STORES, MEETS, LAST}},
    {"the same value", 0, {LOADS, ANSWERED, STORES, MEETS, {1, WRITE, X, 0, RELAXED}}},
    {"another place", 0, {LOADS, ANSWERED, STORES, MEETS, {1, WRITE, Z, 2, RELAXED}}},
    {"its own store", 0, {LOADS, ANSWERED, STORES, MEETS, {0, WRITE, X, 2, RELAXED}}},
    {"no later store", 0, {STORES, LOADS, ANSWERED, MEETS, LAST}},
    {"no store read", 0, {LOADS, ANSWERED, STORES, LAST}},
    {"a read by another", 0, {LOADS, ANSWERED, STORES, {2, READ, Y, 0, RELAXED}, LAST}},
    {"an acquire", 0, {{0, READ, X, 0, ACQUIRE}, ANSWERED, STORES, MEETS, LAST}},
    {"a seq_cst load", 0, {{0, READ, X, 0, SEQUENTIAL}, ANSWERED, STORES, MEETS, LAST}},
    {"a seq_cst store", 0, {LOADS, ANSWERED, STORES, MEETS, {1, WRITE, X, 2, SEQUENTIAL}}},
    {"a release store", 1, {LOADS, ANSWERED, STORES, MEETS, {1, WRITE, X, 2, RELEASE}}},
    {"an exchange", 1, {LOADS, ANSWERED, STORES, MEETS, {1, ADD, X, 2, RELAXED}}},
    {"release alone", 1, {LOADS, ANSWERED, {0, WRITE, Y, 1, RELEASE}, MEETS, LAST}},
    {"acquire alone", 1, {LOADS, ANSWERED, STORES, {1, READ, Y, 0, ACQUIRE}, LAST}},
    {"release and acquire", 0, {LOADS, ANSWERED, {0, WRITE, Y, 1, RELEASE}, {1, READ, Y, 0, ACQUIRE}, LAST}},
    {"a second load of the thread", 0, {LOADS, ANSWERED, LOADS, STORES, MEETS, LAST}},
    {"a second load, answered", 1, {LOADS, LOADS, ANSWERED, STORES, MEETS, LAST}},
    {"a load of one who knows", 0, {LOADS, ANSWERED, {0, WRITE, Z, 1, RELEASE}, {2, READ, Z, 0, ACQUIRE}, {2, READ, X, 0, RELAXED}, STORES,
                                    MEETS, LAST}},
    {"a load of another", 1, {LOADS, ANSWERED, {2, READ, X, 0, RELAXED}, STORES, MEETS, LAST}},
    {"an acquire fence", 0, {LOADS, ANSWERED, {0, FENCE, X, 0, ACQUIRE}, STORES, MEETS, LAST}},
    {"an acquire fence, and one of another", 0, {LOADS, ANSWERED, {0, FENCE, X, 0, ACQUIRE}, {2, FENCE, X, 0, ACQUIRE}, STORES, MEETS, LAST}},
    {"an acquire fence, and a release fence", 0, {LOADS, ANSWERED, {0, FENCE, X, 0, ACQUIRE}, {0, FENCE, X, 0, RELEASE}, STORES, MEETS, LAST}},
    {"a second load, and a fence of another", 0, {LOADS, ANSWERED, LOADS, {2, FENCE, X, 0, ACQUIRE}, STORES, MEETS, LAST}},
    {"an acquire fence before", 1, {{0, FENCE, X, 0, ACQUIRE}, PLAINEST}},
    {"an acquire fence of another", 1, {LOADS, ANSWERED, {2, FENCE, X, 0, ACQUIRE}, STORES, MEETS, LAST}},
    {"a seq_cst fence", 0, {LOADS, ANSWERED, STORES, {0, FENCE, X, 0, SEQUENTIAL}, MEETS, LAST}},
    {"a release fence", 1, {LOADS, ANSWERED, {0, FENCE, X, 0, RELEASE}, STORES, MEETS, LAST}},
    {"a seq_cst fence of the other", 1, {LOADS, ANSWERED, STORES, MEETS, {1, FENCE, X, 0, SEQUENTIAL}, LAST}},
    {"a seq_cst fence by which another knows", 0, {LOADS, ANSWERED, {0, WRITE, Y, 1, RELEASE}, {2, READ, Y, 0, RELAXED},
                                                   {2, FENCE, X, 0, SEQUENTIAL}, MEETS, LAST}},
    {"another attempt", 0, {LOADS, ANSWERED, STORES, {0, BEGINS, X, 0, 0}, MEETS, LAST}},
    {"another thread's attempt", 1, {LOADS, ANSWERED, STORES, {1, BEGINS, X, 0, 0}, MEETS, LAST}},
    {"an ended attempt", 1, {LOADS, ANSWERED, STORES, {0, ENDS, X, 0, 0}, MEETS, LAST}},
    {"an attempt after an ended one", 1, {LOADS, ANSWERED, STORES, {0, ENDS, X, 0, 0}, {2, BEGINS, X, 0, 0}, MEETS, LAST}},
    {"an ended attempt that is known", 0, {LOADS, ANSWERED, STORES, {0, ENDS, X, 0, 0}, {1, BEGINS, X, 0, 0}, MEETS, LAST}},
    {"another object", 0, {LOADS, ANSWERED, STORES, MEETS, {1, FORGETS, X, 0, 0}, LAST}},
    {"a store before another", 0, {LOADS, ANSWERED, {2, WRITE, X, 3, RELAXED}, STORES, MEETS, {1, LATE, X, 0, 0}, LAST}},
};
enum { PROGRAMS = sizeof programs / sizeof programs[0], TWO_LOADS = 2 };

static tmwatch_simulation *orders;
static tmwatch_delays delays;
static atomic_uint_least64_t event;
static uint64_t loaded[THREADS];
static struct operation lines[MOST_LINES];
static unsigned line; /* in which accesses are made */

static void make_step(const struct made *it)
{
    lines[line] = (struct operation){(enum kind)it->kind, it->word, it->value, it->order, 0, 0, 0};
    event++;
    if (it->kind == ANSWERS)
        tmwatch_orders_answers(orders, it->thread, loaded[it->thread] + it->value);
    else if (it->kind == FORGETS)
        tmwatch_orders_forget(orders, &words[it->word], sizeof words[it->word]);
    else if (it->kind == LATE)
        orders->late = ODDS;
    else
        make(orders, it->thread, &lines[line], &loaded[it->thread]);
}

/* Makes a program, but for this step, which is another one: a first run; or a second one, for what is to be made. */
static void run(const struct made *steps, const tmwatch_delay *made, unsigned other, const struct made *another)
{
    delays = (tmwatch_delays){.made = made};
    event = 0;
    orders = tmwatch_orders_new(1, &event, &delays);
    begin_run(orders);
    tmwatch_orders_still(orders);
    for (unsigned i = 0; i < MOST_STEPS && steps[i].kind != END; i++)
        make_step(i == other ? another : &steps[i]);
    free(orders);
}

/* A second run is made; not so if it differs by one step, but for the answer, or is of another round. */
static void check_second_runs(void)
{
    static const struct made steps[MOST_STEPS] = {LOADS, ANSWERED, {0, FENCE, X, 0, RELEASE}, STORES, MEETS, LAST};
    run(steps, NULL, MOST_STEPS, NULL);
    tmwatch_delay found = delays.found[0];
    CHECK(found.loader == 0 && found.storer == 1 && found.before == 0 && found.value == 2);
    run(steps, &found, MOST_STEPS, NULL);
    CHECK(loaded[0] == 2 && loaded[1] == 1 && delays.answered == 2 && delays.stored == 6 && delays.count == 0);
    for (unsigned i = 0; steps[i].kind != END; i++) {
        struct made others[] = {steps[i], steps[i], steps[i], {0, BEGINS, X, 0, 0}, steps[i]};
        others[0].thread = 2;
        others[1].order = SEQUENTIAL;
        others[2].value += UINT64_C(1) << 40;
        others[2].order = steps[i].kind == WRITE ? RELAXED : ACQUIRE;
        others[4].word = Z;
        for (unsigned k = 0; k < sizeof others / sizeof others[0] - (steps[i].kind == FENCE) && steps[i].kind != ANSWERS; k++) {
            run(steps, &found, i, &others[k]);
            CHECK(delays.stored == 0);
        }
    }
    run(steps, &found, 1, &(struct made){0, ANSWERS, X, 1, 0});
    CHECK(delays.answered == 0 && delays.stored == 6);
    found.round++;
    run(steps, &found, MOST_STEPS, NULL);
    CHECK(loaded[0] == 0 && delays.answered == 0);
    run(programs[TWO_LOADS].steps, NULL, MOST_STEPS, NULL);
    found = delays.found[0];
    run(programs[TWO_LOADS].steps, &found, MOST_STEPS, NULL);
    CHECK(delays.stored > 0 && delays.count == 0);
}

/* Whether the plainest program, in a round of its own, is kept: it loads in this line, and all else is in that. */
static bool keeps(unsigned load, unsigned other)
{
    static const struct made steps[MOST_STEPS] = {PLAINEST};
    unsigned before = delays.count;
    begin_run(orders);
    tmwatch_orders_still(orders);
    for (unsigned i = 0; steps[i].kind != END; i++) {
        line = i == 0 ? load : other;
        make_step(&steps[i]);
    }
    return delays.count == before + 1;
}

/* Of the same lines some are kept, and of all a few more; and of rounds beyond those that are followed, nothing is. */
static void check_bounds(void)
{
    memset(&delays, 0, sizeof delays);
    orders = tmwatch_orders_new(1, &event, &delays);
    for (unsigned other = 0; other < 2; other++) {
        delays.count = 0;
        for (unsigned at = 0; at < TMWATCH_MOST_DELAYS / MOST_ALIKE; at++)
            for (unsigned i = 0; i < 2 * MOST_ALIKE; i++)
                CHECK(keeps(at, other * at) == (i < MOST_ALIKE));
    }
    CHECK(!keeps(MOST_LINES - 1, 0) && delays.count == TMWATCH_MOST_DELAYS);
    delays.count = 0;
    while (orders->round + 1 < FOLLOWED_ROUNDS)
        begin_run(orders);
    CHECK(keeps(0, 0) && !keeps(0, 0));
    free(orders);
}

int main(void)
{
    unsigned wrong = 0;
    for (unsigned i = 0; i < PROGRAMS; i++) {
        run(programs[i].steps, NULL, MOST_STEPS, NULL);
        if (delays.count != programs[i].found)
            printf("%s: %u, and not %u\n", programs[i].name, delays.count, programs[i].found);
        wrong += delays.count != programs[i].found;
    }
    check_second_runs();
    check_bounds();
    printf("%u programs, %u wrong\n", (unsigned)PROGRAMS, wrong);
    return wrong > 0;
}
