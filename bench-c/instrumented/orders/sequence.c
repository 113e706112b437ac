/* S, the order of all sequentially consistent operations ([atomics.order]). It isn't chosen, so it may differ from the order in which they are
   made. Kept is what is settled: of each operation its past, by what strongly happens before, and by the four rules on what is
   coherence-ordered before. No access reads a store, or stores before one, that its past has read or written or, by a fence, knows. So no
   cycle arises. A thread's operations come in their order, so that the last one of each thread says which a past has.

   Each thread's last operations are told apart. Those before them, with their pasts, come before all that follow: that orders too much. */

/* The thread's last operation up to this step; null if it has none, or that isn't told apart. */
static struct sequential *last_of(tmwatch_simulation *o, unsigned thread, uint32_t step)
{
    for (unsigned i = o->operations_used[thread]; i > 0; i--)
        if (o->operations[thread][i - 1].step <= step)
            return &o->operations[thread][i - 1];
    return NULL;
}

static void join_past(struct past *to, const struct past *of)
{
    join(&to->last, &of->last);
    join(&to->known, &of->known);
}

/* Adds each thread's operations up to these steps. */
static void add_past(tmwatch_simulation *o, struct past *to, const struct clock *steps)
{
    for (unsigned i = 0; i < THREADS; i++) {
        const struct sequential *it = steps->at[i] > to->last.at[i] ? last_of(o, i, steps->at[i]) : NULL;
        if (it)
            join_past(to, &it->past);
    }
}

/* Adds what strongly happens before a thread's next operation: of others it has acquired what came before their releases. */
static void add_strong(tmwatch_simulation *o, struct past *to, const struct clock *knows)
{
    struct clock steps = *knows;
    for (unsigned i = 0; i < THREADS; i++)
        steps.at[i] -= steps.at[i] > 0;
    add_past(o, to, &steps);
}

/* Of each thread, the last fence that happens before a thread's next access. */
static const struct clock *fences_of(tmwatch_simulation *o, struct view *view)
{
    bool has_any = is_within(&o->fences, &view->knows);
    for (unsigned i = 0; i < THREADS && has_any; i++) {
        if (view->looked_up.at[i] == view->knows.at[i])
            continue;
        const struct sequential *it = last_of(o, i, view->knows.at[i]);
        view->fences.at[i] = it ? it->fence : 0;
        view->looked_up.at[i] = view->knows.at[i];
    }
    return &view->fences;
}

/* Whether S says anything of a thread's access. */
static bool is_in_order(const tmwatch_simulation *o, const struct clock *knows, int order)
{
    return order == SEQUENTIAL || is_within(&o->fences, knows);
}

/* The oldest store that a thread's access of this order may read, or after which it may store. */
static unsigned floor_of(tmwatch_simulation *o, const struct place *it, struct view *view, int order)
{
    struct past past = {{{0}}, {{0}}};
    unsigned i = it->count - 1;
    if (is_in_order(o, &view->knows, order)) {
        past = o->past;
        add_past(o, &past, fences_of(o, view));
    }
    if (order == SEQUENTIAL)
        add_strong(o, &past, &view->knows);
    join(&past.known, &view->knows);
    while (i > 0 && !is_within(&it->stores[i].seen, &past.known) && !is_within(&it->stores[i].ordered, &past.last))
        i--;
    return i;
}

/* A new operation of this thread, with this past. The oldest that is kept makes room. */
static void add_operation(tmwatch_simulation *o, unsigned thread, struct past *past, bool is_fence)
{
    struct sequential *all = o->operations[thread];
    unsigned *used = &o->operations_used[thread];
    uint32_t step = o->views[thread].knows.at[thread], fence = *used > 0 ? all[*used - 1].fence : 0;
    if (*used == MOST_SEQUENTIAL) {
        join_past(&o->past, &all[0].past);
        memmove(all, all + 1, --*used * sizeof *all);
    }
    past->last.at[thread] = step;
    all[(*used)++] = (struct sequential){step, is_fence ? step : fence, *past};
    if (is_fence && o->fences.at[thread] == 0)
        o->fences.at[thread] = step;
}

/* Whether one of the place's stores after this one is of this past. */
static bool is_newer_in(const struct place *it, unsigned found, const struct past *past)
{
    for (unsigned k = found + 1; k < it->count; k++)
        if (is_within(&it->stores[k].ordered, &past->last) || is_within(&it->stores[k].seen, &past->known))
            return true;
    return false;
}

/* All operations that come after the stores after this one get this past too. */
static void settle_newer(tmwatch_simulation *o, const struct place *it, unsigned found, const struct past *past)
{
    for (unsigned thread = 0; thread < THREADS; thread++)
        for (unsigned i = o->operations_used[thread]; i > 0 && is_newer_in(it, found, &o->operations[thread][i - 1].past); i--)
            join_past(&o->operations[thread][i - 1].past, past);
}

/* Settles what comes before and after an access that reads this store, or stores after it. To be called before it is made. */
static void settle_access(const tmwatch_access *a, struct place *it, unsigned found, bool stores)
{
    tmwatch_simulation *o = a->orders;
    struct view *view = &o->views[a->thread];
    struct past past = {{{0}}, {{0}}};
    memset(&o->made, 0, sizeof o->made);
    if (!is_in_order(o, &view->knows, a->order))
        return;
    o->made = *fences_of(o, view);
    if (a->order == SEQUENTIAL) {
        add_strong(o, &past, &view->knows);
        add_past(o, &past, stores ? &it->stores[found].before_stores : &it->stores[found].before_reads);
        add_operation(o, a->thread, &past, false);
        o->made.at[a->thread] = view->knows.at[a->thread];
    }
    if (found + 1 < it->count) {
        add_past(o, &past, &o->made);
        settle_newer(o, it, found, &past);
    }
    if (!stores)
        join(&it->stores[found].before_stores, &o->made);
    for (unsigned k = found + 1; k < it->count; k++) {
        join(&it->stores[k].before_reads, &o->made);
        join(&it->stores[k].before_stores, &o->made);
    }
}

/* Settles what comes before a fence, once it has acquired: what is coherence-ordered before what it knows. (That is all: an operation that
   strongly happens before the fence is known, and so is what comes before that.) */
static void settle_fence(tmwatch_simulation *o, unsigned thread)
{
    struct clock before = {{0}};
    struct past past = {{{0}}, o->views[thread].knows};
    for (unsigned i = 0; i < o->used; i++) {
        const struct place *it = &o->places[i];
        unsigned k = it->bytes > 0 ? it->count : 0;
        while (k > 0 && !is_within(&it->stores[k - 1].seen, &past.known))
            k--;
        if (k > 0)
            join(&before, &it->stores[k - 1].before_reads);
    }
    add_past(o, &past, &before);
    add_operation(o, thread, &past, true);
}

/* The place's history ends: its operations come before all that follow. */
static void end_history(tmwatch_simulation *o, const struct place *it)
{
    if (it->bytes > 0 && it->count > 0)
        add_past(o, &o->past, &it->stores[it->count - 1].before_stores);
}
