/*
Whether bench-c/instrumented/orders.c shows of C++20 all and no more: of small random programs all executions are made that axioms.c allows,
by each choice of what is read and of each modification order, and all that the model comes to, by each choice that it draws and of each next
thread. These have to be the same.

    exact [PROGRAMS [EVENTS [SEED]]]

A program has at most so many events, 8 by default and at most. One in three has all orders, one is mostly seq_cst without fences, one
mostly seq_cst with fences. The last line says how many executions came out of how many. The exit status is 1 if a forbidden one did, or an
allowed one did not: the first of them are printed.
*/
#include "choices.c"
enum { FEWEST_EVENTS = 4, MOST_EVENTS = 8, MOST_THREADS = 3, MOST_EXECUTIONS = 8192 };
enum mixture { ALL_ORDERS, SEQ_CST, SEQ_CST_FENCES, MIXTURES };
enum { KINDS = 10, MOST_PRINTED = 10 };
#include "axioms.c"

/* Executions, each as a number of what was read and of the places of what was stored. */
struct executions {
    unsigned count;
    uint64_t all[MOST_EXECUTIONS];
};

static uint64_t number_of(const struct execution *x)
{
    uint64_t it = 0;
    for (unsigned i = 0; i < x->count; i++)
        it = (it * (MOST_EVENTS + 1) + x->events[i].from) * (MOST_EVENTS + 1) + x->events[i].place;
    return it;
}

/* The execution of this program that has this number. */
static struct execution execution_of(const struct execution *program, uint64_t number)
{
    struct execution it = *program;
    for (unsigned i = it.count; i-- > 0; number /= (MOST_EVENTS + 1) * (MOST_EVENTS + 1)) {
        it.events[i].place = (unsigned)(number % (MOST_EVENTS + 1));
        it.events[i].from = (unsigned)(number / (MOST_EVENTS + 1) % (MOST_EVENTS + 1));
    }
    return it;
}

static bool has(const struct executions *of, uint64_t number)
{
    for (unsigned i = 0; i < of->count; i++)
        if (of->all[i] == number)
            return true;
    return false;
}

static void add(struct executions *to, uint64_t number)
{
    if (has(to, number))
        return;
    if (to->count == MOST_EXECUTIONS)
        abort();
    to->all[to->count++] = number;
}

/* Tries all stores from which the reads from this event on may take their values. */
static void try_reads(struct execution *x, unsigned i, struct executions *allowed)
{
    while (i < x->count && !reads(&x->events[i]))
        i++;
    if (i == x->count) {
        if (!broken_axiom(x))
            add(allowed, number_of(x));
        return;
    }
    for (unsigned from = 0; from <= x->count; from++)
        if (from == 0 || (from - 1 != i && writes(&x->events[from - 1]) && is_same_word(x, from - 1, i))) {
            x->events[i].from = from;
            try_reads(x, i + 1, allowed);
        }
    x->events[i].from = 0;
}

/* Whether no store before this one has this place in the order of its word, or a later one if it is the same thread's. */
static bool is_free(const struct execution *x, unsigned i, unsigned place)
{
    for (unsigned k = 0; k < i; k++)
        if (writes(&x->events[k]) && is_same_word(x, k, i) &&
            (is_sequenced(x, k, i) ? x->events[k].place >= place : x->events[k].place == place))
            return false;
    return true;
}

/* Tries all modification orders: the place of each store from this one on. */
static void try_orders(struct execution *x, unsigned i, struct executions *allowed)
{
    while (i < x->count && !writes(&x->events[i]))
        i++;
    if (i == x->count) {
        try_reads(x, 0, allowed);
        return;
    }
    unsigned stores = 0;
    for (unsigned k = 0; k < x->count; k++)
        stores += writes(&x->events[k]) && is_same_word(x, k, i);
    for (unsigned place = 1; place <= stores; place++)
        if (is_free(x, i, place)) {
            x->events[i].place = place;
            try_orders(x, i + 1, allowed);
        }
    x->events[i].place = 0;
}

/* Chooses the event that is made next: one that is not made, and all before it of its thread are. */
static unsigned choose_next(const struct execution *x, uint32_t made)
{
    unsigned able[MOST_EVENTS], count = 0;
    for (unsigned i = 0; i < x->count; i++) {
        bool is_next = !(made >> i & 1);
        for (unsigned k = 0; k < i; k++)
            is_next = is_next && (made >> k & 1 || !is_sequenced(x, k, i));
        if (is_next)
            able[count++] = i;
    }
    return able[choose(count)];
}

/* Makes an event: what is stored is its number, by a read-modify-write too. */
static void make_event(tmwatch_simulation *orders, struct execution *x, unsigned i)
{
    struct event *it = &x->events[i];
    struct operation operation = {it->kind, it->word, i + 1, it->order, 0, 0, 0};
    tmwatch_access access = access_of(orders, it->thread, &operation);
    uint64_t read = 0;
    if (it->kind != ADD)
        make(orders, it->thread, &operation, &read);
    else {
        if (tmwatch_orders_take(&access, &read))
            words[it->word] = i + 1;
        tmwatch_orders_change(&access, i + 1);
    }
    it->from = (unsigned)read;
}

/* Runs the program once: which execution it was. */
static uint64_t run(tmwatch_simulation *orders, struct execution x)
{
    uint32_t made = 0;
    begin_choices(orders);
    for (unsigned n = 0; n < x.count; n++) {
        unsigned i = choose_next(&x, made);
        made |= UINT32_C(1) << i;
        make_event(orders, &x, i);
    }
    for (unsigned i = 0; i < orders->used; i++)
        for (unsigned k = 0; k < orders->places[i].count; k++)
            if (orders->places[i].stores[k].value > 0)
                x.events[orders->places[i].stores[k].value - 1].place = k;
    return number_of(&x);
}

/* Runs the program by all choices, and adds what comes: how many runs that takes. */
static unsigned long explore(tmwatch_simulation *orders, const struct execution *program, struct executions *came)
{
    unsigned long runs = 0;
    do {
        add(came, run(orders, *program));
        runs++;
    } while (has_next());
    return runs;
}

static unsigned draw(unsigned below)
{
    return (unsigned)lrand48() % below;
}

/* Draws a program of at most so many events. */
static struct execution draw_program(unsigned most, enum mixture mixture)
{
    static const enum kind kinds[MIXTURES][KINDS] = {{READ, READ, READ, READ, WRITE, WRITE, WRITE, ADD, FENCE, FENCE},
                                                     {READ, READ, READ, READ, WRITE, WRITE, WRITE, WRITE, ADD, ADD},
                                                     {READ, READ, READ, WRITE, WRITE, WRITE, ADD, FENCE, FENCE, FENCE}};
    static const int loads[] = {RELAXED, ACQUIRE, SEQUENTIAL}, stores[] = {RELAXED, RELEASE, SEQUENTIAL};
    static const int all[] = {RELAXED, ACQUIRE, RELEASE, BOTH, SEQUENTIAL};
    struct execution x = {FEWEST_EVENTS + draw(most - FEWEST_EVENTS + 1), {{0}}};
    unsigned threads = 2 + draw(MOST_THREADS - 1), of_words = 2 + draw(WORDS - 1);
    for (unsigned i = 0; i < x.count; i++) {
        enum kind kind = kinds[mixture][draw(KINDS)];
        int order = kind == READ ? loads[draw(3)] : kind == WRITE ? stores[draw(3)] : all[draw(5)];
        if ((kind == FENCE && order == RELAXED) || (mixture != ALL_ORDERS && draw(2) == 0))
            order = SEQUENTIAL;
        x.events[i] = (struct event){kind, draw(threads), (enum word)draw(of_words), order, 0, 0, false};
    }
    return x;
}

/* Counts those of `these` that are not of `others`, and prints the first of them. */
static unsigned long count_others(const struct execution *program, const struct executions *these, const struct executions *others,
                                  const char *what)
{
    static unsigned printed;
    unsigned long count = 0;
    for (unsigned i = 0; i < these->count; i++) {
        if (has(others, these->all[i]))
            continue;
        if (count++ == 0 && printed++ < MOST_PRINTED) {
            struct execution it = execution_of(program, these->all[i]);
            const char *wrong = broken_axiom(&it);
            printf("%s: %s\n", what, wrong ? wrong : "it breaks no axiom");
            print_execution(&it);
        }
    }
    return count;
}

int main(int count, char **given)
{
    static struct executions allowed, came;
    unsigned long programs = count > 1 ? strtoul(given[1], NULL, 10) : 300, runs = 0, sum_allowed = 0, forbidden = 0, missing = 0;
    unsigned long events = count > 2 ? strtoul(given[2], NULL, 10) : MOST_EVENTS;
    tmwatch_simulation *orders = tmwatch_orders_new(1, &recorded, NULL);
    srand48(count > 3 ? strtol(given[3], NULL, 10) : 1);
    for (unsigned long p = 0; p < programs && events >= FEWEST_EVENTS && events <= MOST_EVENTS; p++) {
        struct execution x = draw_program((unsigned)events, p % MIXTURES);
        allowed.count = came.count = 0;
        try_orders(&x, 0, &allowed);
        runs += explore(orders, &x, &came);
        sum_allowed += allowed.count;
        forbidden += count_others(&x, &came, &allowed, "forbidden");
        missing += count_others(&x, &allowed, &came, "missing");
    }
    printf("%lu programs, %lu runs: of %lu allowed executions %lu are missing, and %lu forbidden ones came\n", programs, runs, sum_allowed,
           missing, forbidden);
    free(orders);
    return sum_allowed == 0 || forbidden > 0 || missing > 0;
}
