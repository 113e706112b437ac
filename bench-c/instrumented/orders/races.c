/* Races: two accesses of the same bytes by two threads, of which one stores, one is plain, and neither happens before the other. A plain
   access isn't simulated, so that a memory shows nothing of its orders there. The first race is kept. */

/* How many cells are tried for a word, and how many words of one access are looked at. */
enum { MOST_TRIES = 8, MOST_WORDS = 64, ALL_BYTES = (1 << WORD_BYTES) - 1 };

/* The word's cell of this round, or null; if `adds`, a new one where there is room. */
static struct cell *find_cell(tmwatch_simulation *o, uintptr_t word, bool adds)
{
    uint64_t from = word * apart_words >> (64 - CELL_BITS);
    for (unsigned i = 0; i < MOST_TRIES; i++) {
        struct cell *it = &o->cells[(from + i) % CELLS];
        bool is_free = it->round != o->round;
        if (is_free && adds)
            *it = (struct cell){.word = word, .round = o->round};
        if (is_free || it->word == word)
            return is_free && !adds ? NULL : it;
    }
    return NULL;
}

static bool is_store(enum access_kind kind)
{
    return kind == PLAIN_STORE || kind == ATOMIC_STORE;
}

static bool is_known(const tmwatch_access *a, unsigned thread, uint32_t step)
{
    return step <= a->orders->views[a->thread].knows.at[thread];
}

static void keep_race(const tmwatch_access *a, enum access_kind kind, unsigned other, enum access_kind other_kind, const void *caller)
{
    if (!a->orders->has_race)
        a->orders->race = (struct race){a->thread, other, kind, other_kind, a->caller, caller};
    a->orders->has_race = true;
}

/* Looks whether an access races with the last plain ones of this kind by others. */
static void look_at_plain(const tmwatch_access *a, const struct cell *it, uint8_t bytes, enum access_kind kind, enum access_kind other)
{
    unsigned threads = is_store(kind) || is_store(other) ? it->threads[other] & ~(1u << a->thread) : 0;
    for (unsigned i = 0; i < THREADS; i++) {
        const struct last *last = &it->last[other][i];
        if (threads >> i & 1 && last->bytes & bytes && !is_known(a, i, last->step))
            keep_race(a, kind, i, other, last->caller);
    }
}

/* Looks whether a plain access races with an atomic one of this place: by who has made a store or, for a plain store, first read it. */
static void look_at_place(const tmwatch_access *a, const struct place *it, enum access_kind kind)
{
    for (unsigned k = 0; k < it->count; k++)
        for (unsigned i = 0; i < THREADS; i++) {
            const struct store *store = &it->stores[k];
            bool is_made = store->caller && store->thread == i;
            if (i != a->thread && !is_known(a, i, store->seen.at[i]) && (is_made || is_store(kind)))
                keep_race(a, kind, i, is_made ? ATOMIC_STORE : ATOMIC_LOAD, is_made ? store->caller : NULL);
        }
}

/* Looks at all places that overlap these bytes of a word. */
static void look_at_places(const tmwatch_access *a, uintptr_t from, uintptr_t end, enum access_kind kind)
{
    tmwatch_simulation *o = a->orders;
    for (uint16_t i = *head_of(o, from); i > 0; i = o->places[i - 1].next) {
        const struct place *it = &o->places[i - 1];
        if (it->at < end && from < it->at + it->bytes)
            look_at_place(a, it, kind);
    }
}

/* Looks at one access of some bytes of a word, and keeps it if it is plain: it comes before the thread's next step. */
static void look_at_word(const tmwatch_access *a, uintptr_t from, uintptr_t end, enum access_kind kind)
{
    bool is_plain = kind < PLAIN_KINDS;
    unsigned first = from % WORD_BYTES, count = (unsigned)(end - from);
    uint8_t bytes = (uint8_t)((ALL_BYTES >> (WORD_BYTES - count)) << first);
    struct cell *it = find_cell(a->orders, from >> WORD_BITS, is_plain);
    if (is_plain)
        look_at_places(a, from, end, kind);
    if (!it)
        return;
    for (enum access_kind other = PLAIN_LOAD; other < PLAIN_KINDS; other++)
        look_at_plain(a, it, bytes, kind, other);
    if (!is_plain)
        return;
    struct last *last = &it->last[kind][a->thread];
    uint32_t now = a->orders->views[a->thread].knows.at[a->thread] + 1;
    *last = (struct last){now, last->step == now ? last->bytes | bytes : bytes, a->caller};
    it->threads[kind] |= (uint8_t)(1u << a->thread);
}

static void look_for_race(const tmwatch_access *a, size_t bytes, enum access_kind kind)
{
    uintptr_t from = (uintptr_t)a->at, end = from + bytes;
    for (unsigned i = 0; i < MOST_WORDS && from < end && !a->orders->has_race; i++) {
        uintptr_t next = (from | (WORD_BYTES - 1)) + 1;
        look_at_word(a, from, next < end ? next : end, kind);
        from = next;
    }
}

/* Ends what is kept of these bytes. */
static void forget_cells(tmwatch_simulation *o, uintptr_t at, size_t bytes)
{
    uintptr_t word = at >> WORD_BITS, end = (at + bytes + WORD_BYTES - 1) >> WORD_BITS;
    for (; end - word <= MOST_WORDS && word < end; word++) {
        struct cell *it = find_cell(o, word, false);
        if (it)
            memset(it->threads, 0, sizeof it->threads);
    }
    for (unsigned i = 0; word < end && i < CELLS; i++)
        if (o->cells[i].word >= word && o->cells[i].word < end)
            memset(o->cells[i].threads, 0, sizeof o->cells[i].threads);
}
