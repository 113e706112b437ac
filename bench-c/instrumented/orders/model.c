/* The model: what a load may return, where a store goes, and what is known then. */

/* Of 16, how many choices are not the newest, if they may be; after so many stale loads in a row of one place, a thread gets the newest. */
enum { ODDS = 16, LATE_ODDS = 4, MOST_STALE = 8 };

static struct view *next_step(tmwatch_simulation *o, unsigned thread)
{
    struct view *it = &o->views[thread];
    it->knows.at[thread]++;
    return it;
}

/* The thread has read or written this store. */
static void see(const tmwatch_access *a, struct store *it)
{
    uint32_t step = a->orders->views[a->thread].knows.at[a->thread];
    if (it->seen.at[a->thread] == 0)
        it->seen.at[a->thread] = step;
    if (a->order == SEQUENTIAL && it->ordered.at[a->thread] == 0)
        it->ordered.at[a->thread] = step;
}

/* An access beside the table: as if by one that acquires and releases, whatever its order. */
static void pass(tmwatch_simulation *o, struct view *view)
{
    join(&view->knows, &o->untracked);
    o->untracked = view->knows;
}

/* The place of the thread's next access; or null, which is beside the table. */
static struct place *next_place(const tmwatch_access *a)
{
    struct view *view = next_step(a->orders, a->thread);
    struct place *it = find_place(a);
    if (!it)
        pass(a->orders, view);
    return it;
}

/* Reads a store of the place, and is about to store after it or not. */
static uint64_t read_store(const tmwatch_access *a, struct place *it, unsigned found, bool stores)
{
    struct view *view = &a->orders->views[a->thread];
    struct store *store = &it->stores[found];
    it->stale[a->thread] = found + 1 < it->count ? (uint8_t)(it->stale[a->thread] + 1) : 0;
    keep_deviation(a, it, found, STALE_LOAD);
    meet(a, it, store);
    settle_access(a, it, found, stores);
    see(a, store);
    follow_access(a, it, store->value, false);
    join(&view->loaded, &store->releases);
    if (acquires(a->order))
        join(&view->knows, &store->releases);
    return store->value;
}

/* Draws one of the stores that an access of this order may find: the newest, or by these odds any older one. */
static unsigned draw_store(const tmwatch_access *a, const struct place *it, int order, uint32_t odds)
{
    tmwatch_simulation *o = a->orders;
    struct view *view = &o->views[a->thread];
    unsigned newest = it->count - 1;
    bool is_known = newest == 0 || is_within(&it->stores[newest].seen, &view->knows);
    if (is_known || it->stale[a->thread] >= MOST_STALE || draw_below(&o->draws, ODDS) >= odds)
        return newest;
    unsigned lowest = floor_of(o, it, view, order);
    return lowest == newest ? newest : lowest + draw_below(&o->draws, newest - lowest);
}

/* Whether a read-modify-write may come after this store. */
static bool may_change(const struct place *it, unsigned found)
{
    return found + 1 == it->count || !it->stores[found + 1].is_change;
}

uint64_t tmwatch_orders_load(const tmwatch_access *a)
{
    look_for_race(a, a->bytes, ATOMIC_LOAD);
    struct place *it = next_place(a);
    if (!it)
        return in_memory(a->at, a->bytes);
    return keep_load(a, it, read_store(a, it, draw_store(a, it, a->order, a->orders->stale), false));
}

bool tmwatch_orders_take(const tmwatch_access *a, uint64_t *held)
{
    tmwatch_simulation *o = a->orders;
    struct place *it = o->taken = next_place(a);
    *held = in_memory(a->at, a->bytes);
    if (!it)
        return true;
    unsigned found = draw_store(a, it, a->order, o->late);
    o->taken_store = may_change(it, found) ? found : it->count - 1;
    *held = read_store(a, it, o->taken_store, true);
    return o->taken_store + 1 == it->count;
}

/* Draws the store that a compare-and-swap reads: of an older one it may fail, or succeed if nothing has changed that. */
static unsigned draw_compared(const tmwatch_access *a, const struct place *it, uint64_t looked_for, int failed)
{
    tmwatch_simulation *o = a->orders;
    unsigned newest = it->count - 1, found = draw_store(a, it, failed == SEQUENTIAL ? a->order : failed, o->stale);
    bool is_equal = it->stores[found].value == looked_for, is_changed = is_equal && !may_change(it, found);
    if (found == newest || is_changed)
        return newest;
    return found < floor_of(o, it, &o->views[a->thread], is_equal ? a->order : failed) ? newest : found;
}

enum tmwatch_compared tmwatch_orders_compare(const tmwatch_access *a, uint64_t *held, int failed, bool is_weak)
{
    tmwatch_simulation *o = a->orders;
    struct place *it = o->taken = next_place(a);
    uint64_t newest = in_memory(a->at, a->bytes), looked_for = *held;
    tmwatch_access to_fail = *a;
    to_fail.order = failed;
    if (!it) {
        *held = newest;
        return newest == looked_for ? TMWATCH_TAKES_NEWEST : TMWATCH_FAILS;
    }
    unsigned found = draw_compared(a, it, looked_for, failed);
    bool is_spurious = is_weak && draw_below(&o->draws, ODDS) == 0;
    if (it->stores[found].value != looked_for || is_spurious) {
        if (is_spurious && found < floor_of(o, it, &o->views[a->thread], failed))
            found = it->count - 1;
        *held = read_store(&to_fail, it, found, false);
        look_for_race(a, a->bytes, ATOMIC_LOAD);
        return TMWATCH_FAILS;
    }
    o->taken_store = found;
    read_store(a, it, found, true);
    return found + 1 == it->count ? TMWATCH_TAKES_NEWEST : TMWATCH_TAKES_OLDER;
}

/* Stores after this many of the place's stores. */
static struct store *add_store(const tmwatch_access *a, struct place *it, unsigned at, uint64_t value)
{
    const struct view *view = &a->orders->views[a->thread];
    struct clock before = it->stores[at - 1].before_stores;
    struct store *store = make_room(it, at);
    join(&before, &a->orders->made);
    store->before_reads = store->before_stores = before;
    store->value = value;
    store->thread = (uint8_t)a->thread;
    store->attempt = view->attempts;
    store->caller = a->caller;
    store->releases = releases(a->order) ? view->knows : view->fenced;
    see(a, store);
    follow_access(a, it, value, store == &it->stores[it->count - 1] && a->order != SEQUENTIAL);
    look_for_race(a, a->bytes, ATOMIC_STORE);
    return store;
}

bool tmwatch_orders_store(const tmwatch_access *a, uint64_t value)
{
    tmwatch_simulation *o = a->orders;
    struct place *it = next_place(a);
    if (!it)
        return true;
    unsigned after = draw_store(a, it, a->order, o->late);
    while (!may_change(it, after))
        after++;
    bool is_newest = after + 1 == it->count;
    keep_deviation(a, it, after, LATE_STORE);
    settle_access(a, it, after, true);
    add_store(a, it, after + 1, value);
    return is_newest;
}

void tmwatch_orders_change(const tmwatch_access *a, uint64_t value)
{
    struct place *it = a->orders->taken;
    if (!it)
        return;
    struct clock released = it->stores[a->orders->taken_store].releases;
    struct store *store = add_store(a, it, a->orders->taken_store + 1, value);
    join(&store->releases, &released);
    store->is_change = true;
}

void tmwatch_orders_fence(const tmwatch_access *a)
{
    struct view *view = next_step(a->orders, a->thread);
    for (unsigned i = 0; i < THREADS; i++)
        a->orders->met[a->thread][i].is_acquired |= acquires(a->order);
    if (acquires(a->order))
        join(&view->knows, &view->loaded);
    follow_fence(a);
    if (a->order == SEQUENTIAL)
        settle_fence(a->orders, a->thread);
    if (releases(a->order))
        view->fenced = view->knows;
}

/* Ends the histories of places that overlap these bytes. */
static void forget_places(tmwatch_simulation *o, uintptr_t at, size_t bytes)
{
    uintptr_t end = at + bytes;
    if (bytes <= (size_t)FEW_WORDS * WORD_BYTES)
        for (uintptr_t word = at; word < end; word = (word | (WORD_BYTES - 1)) + 1)
            drop_places(o, word, end - word, NULL);
    else
        for (unsigned i = 0; i < o->used; i++)
            if (o->places[i].at < end && at < o->places[i].at + o->places[i].bytes)
                o->places[i].bytes = 0;
}

void tmwatch_orders_forget(tmwatch_simulation *o, const volatile void *at, size_t bytes)
{
    forget_places(o, (uintptr_t)at, bytes);
    forget_cells(o, (uintptr_t)at, bytes);
}

void tmwatch_orders_plain(const tmwatch_access *a, size_t bytes, bool stores, bool is_lasting)
{
    if (is_lasting)
        look_for_race(a, bytes, stores ? PLAIN_STORE : PLAIN_LOAD);
    if (stores)
        forget_places(a->orders, (uintptr_t)a->at, bytes);
}

void tmwatch_orders_wide(const tmwatch_access *a)
{
    tmwatch_simulation *o = a->orders;
    struct view *view = next_step(o, a->thread);
    uintptr_t at = (uintptr_t)a->at;
    look_for_race(a, a->bytes, ATOMIC_STORE);
    for (uintptr_t word = at; word < at + a->bytes; word += WORD_BYTES)
        drop_places(o, word, WORD_BYTES, &view->knows);
    pass(o, view);
    for (uintptr_t word = at; word < at + a->bytes; word += WORD_BYTES) {
        struct place *it = add_place(o, word, WORD_BYTES);
        if (it)
            it->stores[0].releases = view->knows;
    }
}

void tmwatch_orders_begins(tmwatch_simulation *o, unsigned thread)
{
    follow_fence(&(tmwatch_access){.orders = o, .thread = thread, .order = __ATOMIC_ACQUIRE});
    join(&o->views[thread].knows, &o->ended);
    o->views[thread].attempts++;
}

void tmwatch_orders_ends(tmwatch_simulation *o, unsigned thread)
{
    join(&o->ended, &next_step(o, thread)->knows);
}

void tmwatch_orders_locked(tmwatch_simulation *o, unsigned thread, const volatile void *at, bool is_shared)
{
    struct lock *it = find_lock(o, at);
    join(&next_step(o, thread)->knows, is_shared ? &it->alone : &it->all);
    if (is_shared)
        it->sharers |= 1u << thread;
}

void tmwatch_orders_unlocks(tmwatch_simulation *o, unsigned thread, const volatile void *at)
{
    struct lock *it = find_lock(o, at);
    const struct clock *knows = &next_step(o, thread)->knows;
    join(&it->all, knows);
    if (!(it->sharers >> thread & 1))
        join(&it->alone, knows);
    it->sharers &= ~(1u << thread);
}

void tmwatch_orders_futex(tmwatch_simulation *o, const volatile void *word, const void *caller)
{
    if (!look_up(o, (uintptr_t)word, sizeof(uint32_t)))
        meet_untracked(o, UNMARKED_LOCK, caller);
}

void tmwatch_orders_still(tmwatch_simulation *o)
{
    o->stale = o->late = 0;
}

tmwatch_simulation *tmwatch_orders_new(uint64_t seed, const atomic_uint_least64_t *recorded, tmwatch_delays *delays)
{
    tmwatch_simulation *o = calloc(1, sizeof *o);
    if (!o)
        return NULL;
    o->draws = seed;
    o->recorded = recorded;
    o->delays = delays;
    tmwatch_orders_round(o);
    return o;
}

void tmwatch_orders_round(tmwatch_simulation *o)
{
    static const uint8_t stale_odds[] = {2, 8, 8, 14};
    memset(o, 0, offsetof(tmwatch_simulation, locks));
    o->round++;
    if (o->round > FOLLOWED_ROUNDS)
        o->delays = NULL;
    o->stale = stale_odds[draw_below(&o->draws, sizeof stale_odds)];
    o->late = draw_below(&o->draws, 2) == 0 ? 0 : LATE_ODDS;
}
