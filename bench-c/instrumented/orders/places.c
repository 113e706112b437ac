/* Places: what is accessed atomically, each with its last stores; and locks. */

static uint64_t in_memory(const volatile void *at, unsigned bytes)
{
    return bytes == 1   ? __atomic_load_n((const volatile uint8_t *)at, RELAXED)
           : bytes == 2 ? __atomic_load_n((const volatile uint16_t *)at, RELAXED)
           : bytes == 4 ? __atomic_load_n((const volatile uint32_t *)at, RELAXED)
                        : __atomic_load_n((const volatile uint64_t *)at, RELAXED);
}

static uint16_t *head_of(tmwatch_simulation *o, uintptr_t at)
{
    return &o->heads[(at >> WORD_BITS) * apart_words >> (64 - HEAD_BITS)];
}

/* Empties those that overlap these bytes of one word: the last of them, or none. What their stores have released is added to *released; or
   that is null, since these bytes are another object's now. */
static struct place *drop_places(tmwatch_simulation *o, uintptr_t at, size_t bytes, struct clock *released)
{
    struct place *found = NULL;
    for (uint16_t i = *head_of(o, at); i > 0; i = o->places[i - 1].next) {
        struct place *it = &o->places[i - 1];
        if (it->at >> WORD_BITS != at >> WORD_BITS || (it->bytes > 0 && (it->at >= at + bytes || at >= it->at + it->bytes)))
            continue;
        for (unsigned k = 0; released && it->bytes > 0 && (k == 0 || k < it->count); k++)
            join(released, &it->stores[k].releases);
        if (released)
            end_history(o, it);
        it->bytes = 0;
        found = it;
    }
    return found;
}

/* A place that isn't in the table yet; null if that is full. Its first store is to be what memory holds then, and releases what places of
   other sizes did there: too much rather than too little. */
static struct place *add_place(tmwatch_simulation *o, uintptr_t at, unsigned bytes)
{
    struct clock released = {{0}};
    struct place *it = drop_places(o, at, bytes, &released);
    if (!it && o->used == MOST_PLACES)
        return NULL;
    if (!it) {
        uint16_t *head = head_of(o, at);
        it = &o->places[o->used++];
        it->next = *head;
        *head = (uint16_t)o->used;
    }
    it->at = at;
    it->bytes = bytes;
    it->count = 0;
    it->number = ++o->histories;
    it->stores[0].releases = released;
    return it;
}

static struct place *look_up(tmwatch_simulation *o, uintptr_t at, unsigned bytes)
{
    for (uint16_t i = *head_of(o, at); i > 0; i = o->places[i - 1].next)
        if (o->places[i - 1].at == at && o->places[i - 1].bytes == bytes)
            return &o->places[i - 1];
    return NULL;
}

static void meet_untracked(tmwatch_simulation *o, enum untracked kind, const void *caller)
{
    if (!o->untracked_at[kind])
        o->untracked_at[kind] = caller;
}

/* The place of an access, or null. If memory doesn't hold its newest store, one that isn't simulated has come, and the history is forgotten. */
static struct place *find_place(const tmwatch_access *a)
{
    tmwatch_simulation *o = a->orders;
    uintptr_t at = (uintptr_t)a->at;
    uint64_t newest = in_memory(a->at, a->bytes);
    struct place *it = look_up(o, at, a->bytes);
    it = it ? it : add_place(o, at, a->bytes);
    if (!it || (it->count > 0 && it->stores[it->count - 1].value == newest))
        return it;
    if (it->count > 0)
        meet_untracked(o, UNMARKED_STORE, a->caller);
    end_history(o, it);
    memset(it->stale, 0, sizeof it->stale);
    memset(it->read, 0, sizeof it->read);
    it->stores[0] = (struct store){.value = newest, .releases = it->count > 0 ? (struct clock){{0}} : it->stores[0].releases};
    it->count = 1;
    return it;
}

/* Makes room for a store there, maybe by forgetting the oldest. */
static struct store *make_room(struct place *it, unsigned at)
{
    if (it->count == MOST_STORES) {
        memmove(it->stores, it->stores + 1, (MOST_STORES - 1) * sizeof it->stores[0]);
        it->count--;
        at--;
    }
    memmove(it->stores + at + 1, it->stores + at, (it->count - at) * sizeof it->stores[0]);
    memset(&it->stores[at], 0, sizeof it->stores[at]);
    it->count++;
    return &it->stores[at];
}

/* The lock there. Those beyond the table share one. */
static struct lock *find_lock(tmwatch_simulation *o, const volatile void *at)
{
    unsigned i = 0;
    while (i < o->locks_used && o->locks[i].at != at)
        i++;
    if (i == o->locks_used && i < MOST_LOCKS - 1)
        o->locks[o->locks_used++] = (struct lock){.at = at};
    return &o->locks[i];
}
