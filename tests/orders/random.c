/*
Random programs on bench-c/instrumented/orders.c alone: what each run has read, and its modification orders, are judged by axioms.c. So the
model shows no run that C++20 forbids.

    random [RUNS [SEED]]

The last line says how many loads were stale, stores late and changes of older stores. The exit status is 1 if a run broke an axiom: its
events are printed.
*/
#include "program.c"
enum { FEWEST_EVENTS = 6, MOST_EVENTS = 24, MOST_THREADS = 4, PERCENT = 100 };
#include "axioms.c"

/* What was seen beside the newest store. */
struct seen {
    unsigned long loads, stale, late, changed, failed;
};

/* Any of the orders that such an operation may have. */
static int draw_order(uint64_t *draws, enum kind kind)
{
    static const int loads[] = {RELAXED, ACQUIRE, SEQUENTIAL}, stores[] = {RELAXED, RELEASE, SEQUENTIAL};
    static const int all[] = {RELAXED, ACQUIRE, RELEASE, BOTH, SEQUENTIAL};
    if (kind == READ)
        return loads[draw_below(draws, 3)];
    if (kind == WRITE)
        return stores[draw_below(draws, 3)];
    return kind == FENCE ? all[1 + draw_below(draws, 4)] : all[draw_below(draws, 5)];
}

static enum kind draw_kind(uint64_t *draws)
{
    static const struct {
        enum kind kind;
        unsigned percent;
    } shares[] = {{READ, 38}, {WRITE, 27}, {ADD, 6}, {SWAP, 5}, {WEAK_SWAP, 3}, {FENCE, 12}, {ENDS, 2}, {BEGINS, 2}, {LOCK, 1}, {SHARE, 2}};
    uint32_t drawn = draw_below(draws, PERCENT);
    for (unsigned i = 0; i < sizeof shares / sizeof shares[0]; i++) {
        if (drawn < shares[i].percent)
            return shares[i].kind;
        drawn -= shares[i].percent;
    }
    return UNLOCK;
}

/* Draws the execution's next operation. Event i stores a value that ends with i + 1. An unlock is by who shares the lock if that thread's
   last operation on the lock says so. */
static struct operation draw_operation(uint64_t *draws, struct execution *x, unsigned thread)
{
    static const int failed[] = {RELAXED, ACQUIRE, SEQUENTIAL};
    struct event *event = &x->events[x->count];
    struct operation it = {draw_kind(draws), draw_below(draws, WORDS), x->count + 1, 0, 0, draw_below(draws, x->count + 1), 0};
    it.order = draw_order(draws, it.kind);
    it.failed = failed[draw_below(draws, 3)];
    *event = (struct event){it.kind, thread, it.word, it.order, 0, 0, false};
    for (unsigned i = 0; i < x->count && it.kind == UNLOCK; i++)
        if (x->events[i].thread == thread && (x->events[i].kind == SHARE || x->events[i].kind == UNLOCK))
            event->is_shared = x->events[i].kind == SHARE;
    return it;
}

/* Makes the next operation, and counts what is seen. Adds here store their own value too: what they read stays apart. */
static void make_next(tmwatch_simulation *orders, struct execution *x, unsigned thread, struct seen *seen)
{
    struct event *event = &x->events[x->count];
    struct operation it = draw_operation(&orders->draws, x, thread);
    uint64_t newest = words[it.word], read = 0;
    bool has_stored, is_swap = it.kind == SWAP || it.kind == WEAK_SWAP;
    if (it.kind == ADD) {
        tmwatch_access access = access_of(orders, thread, &it);
        if (tmwatch_orders_take(&access, &read))
            words[it.word] = it.value;
        tmwatch_orders_change(&access, it.value);
        has_stored = true;
    } else
        has_stored = make(orders, thread, &it, &read);
    if (is_swap) {
        event->kind = has_stored ? ADD : READ;
        event->order = has_stored ? it.order : it.failed;
    }
    event->from = (unsigned)read;
    seen->loads += it.kind == READ;
    seen->stale += it.kind == READ && read != newest;
    seen->failed += is_swap && !has_stored && read != newest;
    seen->late += it.kind == WRITE && words[it.word] != it.value;
    seen->changed += (it.kind == ADD || is_swap) && has_stored && words[it.word] != it.value;
    x->count++;
}

/* Takes the modification orders from the model: whether it has kept them whole. */
static bool take_orders(const tmwatch_simulation *orders, struct execution *x)
{
    for (unsigned i = 0; i < orders->used; i++) {
        const struct place *place = &orders->places[i];
        if (place->count == MOST_STORES)
            return false;
        for (unsigned k = 0; k < place->count; k++)
            if (place->stores[k].value > 0)
                x->events[place->stores[k].value - 1].place = k;
    }
    return true;
}

int main(int count, char **given)
{
    unsigned long runs = count > 1 ? strtoul(given[1], NULL, 10) : 100000;
    tmwatch_simulation *orders = tmwatch_orders_new(count > 2 ? strtoul(given[2], NULL, 10) : 7, &recorded, NULL);
    struct seen seen = {0, 0, 0, 0, 0};
    for (unsigned long k = 0; k < runs; k++) {
        struct execution x = {0, {{0}}};
        begin_run(orders);
        unsigned threads = 2 + draw_below(&orders->draws, MOST_THREADS - 1);
        unsigned most = FEWEST_EVENTS + draw_below(&orders->draws, MOST_EVENTS - FEWEST_EVENTS);
        while (x.count < most)
            make_next(orders, &x, draw_below(&orders->draws, threads), &seen);
        const char *wrong = take_orders(orders, &x) ? broken_axiom(&x) : NULL;
        if (wrong) {
            printf("run %lu breaks an axiom: %s\n", k, wrong);
            print_execution(&x);
            return 1;
        }
    }
    printf("%lu random runs, none forbidden: %lu loads, %lu stale; %lu late stores, %lu changes of older ones, %lu swaps that failed by one\n",
           runs, seen.loads, seen.stale, seen.late, seen.changed, seen.failed);
    free(orders);
    return 0;
}
